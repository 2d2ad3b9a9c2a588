// Random graphs that the reader accepts, one a line: N E, then the times, then from to mark of each edge.
// graphs N E MARKED(percent) TIME COUNT SEED
struct Draw(u64);

impl Draw {
    fn below(&mut self, k: usize) -> usize {
        self.0 ^= self.0 << 13;
        self.0 ^= self.0 >> 7;
        self.0 ^= self.0 << 17;
        ((self.0 >> 11) % (k as u64)) as usize
    }
}

type Edge = (usize, usize, usize);

// Whether a circuit has no token: reads are 2i, writes 2i + 1.
fn dead(n: usize, edges: &[Edge]) -> bool {
    let size = 2 * (n + 2);
    let mut out = vec![vec![]; size];
    for i in 1..=n {
        out[2 * i].push(2 * i + 1);
    }
    for &(a, b, m) in edges {
        if m == 0 {
            out[2 * a + 1].push(2 * b);
        } else {
            out[2 * b].push(2 * a + 1);
        }
    }
    let mut wait = vec![0; size];
    for v in 0..size {
        for &w in &out[v] {
            wait[w] += 1;
        }
    }
    let mut open: Vec<usize> = (0..size).filter(|&v| wait[v] == 0).collect();
    let mut done = 0;
    while let Some(v) = open.pop() {
        done += 1;
        for &w in &out[v] {
            wait[w] -= 1;
            if wait[w] == 0 {
                open.push(w);
            }
        }
    }
    done != size
}

// Each operation has an edge in and one out; more edges follow, marked ones anywhere that leaves no circuit dead. Operations and edges are then shuffled.
fn graph(n: usize, e: usize, marked: usize, draw: &mut Draw) -> Vec<Edge> {
    loop {
        let mut edges: Vec<Edge> = vec![];
        for i in 1..=n {
            edges.push((draw.below(i), i, 0));
        }
        for i in 1..=n {
            if !edges.iter().any(|x| x.0 == i) {
                edges.push((i, i + 1 + draw.below(n + 1 - i), 0));
            }
        }
        if !edges.iter().any(|x| x.1 == n + 1) {
            edges.push((n, n + 1, 0));
        }
        let mut tries = 0;
        while edges.len() < e && tries < 10000 {
            tries += 1;
            let (a, b, m) = (draw.below(n + 1), 1 + draw.below(n + 1), (draw.below(100) < marked) as usize);
            if m == 0 && a >= b {
                continue;
            }
            edges.push((a, b, m));
            if dead(n, &edges) {
                edges.pop();
            }
        }
        if edges.len() != e {
            continue;
        }
        let mut name: Vec<usize> = (0..n + 2).collect();
        for k in (2..=n).rev() {
            name.swap(k, 1 + draw.below(k));
        }
        for k in (1..e).rev() {
            edges.swap(k, draw.below(k + 1));
        }
        return edges.iter().map(|x| (name[x.0], name[x.1], x.2)).collect();
    }
}

fn main() {
    let args: Vec<usize> = std::env::args().skip(1).map(|x| x.parse().unwrap()).collect();
    let (n, e, marked, time, count) = (args[0], args[1], args[2], args[3], args[4]);
    let mut draw = Draw(88172645463325252 ^ (args[5] as u64));
    for _ in 0..count {
        let edges = graph(n, e, marked, &mut draw);
        print!("{} {}", n, e);
        for _ in 0..n {
            print!(" {}", 1 + draw.below(time));
        }
        for (a, b, m) in edges {
            print!(" {} {} {}", a, b, m);
        }
        println!();
    }
}
