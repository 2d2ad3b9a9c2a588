// Random inputs: graphs of every size, files with damage, markings near and far from reached ones, lists of firings.
use crate::encode::{self, Edge};
use crate::model::{Graph, look};

// A small generator of our own (xorshift), so that a seed means the same everywhere.
pub struct Dice(pub u64);

impl Dice {
    pub fn roll(&mut self, n: usize) -> usize {
        self.0 ^= self.0 << 13;
        self.0 ^= self.0 >> 7;
        self.0 ^= self.0 << 17;
        ((self.0 >> 11) % n as u64) as usize
    }

    pub fn one_in(&mut self, n: usize) -> bool {
        self.roll(n) == 0
    }
}

// The bytes of a file: labels at random, tables in either order.
pub fn file(d: &mut Dice, times: &[u64], edges: &[Edge]) -> Vec<u8> {
    let labels: Vec<[u8; 8]> = times.iter().map(|_| [(); 8].map(|_| d.roll(256) as u8)).collect();
    let edges_first = !d.one_in(2);
    encode::file(times, &labels, edges, edges_first)
}

fn time(d: &mut Dice) -> u64 {
    match d.roll(4) {
        0 => 1 + d.roll(3) as u64,
        1 => 1 + d.roll(20) as u64,
        2 => 1_000_000 - d.roll(3) as u64,
        _ => 1 + d.roll(1_000_000) as u64,
    }
}

// A graph in which every node is linked: a chain of forward edges from source to sink, and further edges, some marked.
pub fn graph(d: &mut Dice, most: usize) -> (Vec<u64>, Vec<Edge>) {
    let n = 1 + d.roll(most);
    let same = d.one_in(3);
    let one = time(d);
    let times: Vec<u64> = (0..n).map(|_| if same { one } else { time(d) }).collect();
    let mut edges: Vec<Edge> = Vec::new();
    for v in 1..=n {
        edges.push((d.roll(v), v, 0));
    }
    for v in 0..=n {
        if !edges.iter().any(|e| e.0 == v) || v == n {
            edges.push((v, v + 1 + d.roll(n + 1 - v), 0));
        }
    }
    let room = 128 - edges.len();
    let many = if d.one_in(4) { room } else { room.min(2 * n) };
    let extra = d.roll(1 + many);
    for _ in 0..extra {
        let (a, b) = (d.roll(n + 1), 1 + d.roll(n + 1));
        let forward = a < b;
        // a mark on a backward edge keeps circuits alive; now and then any mark
        let mark = if d.one_in(12) { d.roll(2) as u8 } else { !forward as u8 };
        edges.push((a, b, mark));
    }
    // rows in any order: an edge is its row
    for i in (1..edges.len()).rev() {
        edges.swap(i, d.roll(i + 1));
    }
    (times, edges)
}

// A graph that is accepted, with its file.
pub fn accepted(d: &mut Dice, most: usize) -> (Vec<u8>, Graph) {
    loop {
        let (times, edges) = graph(d, most);
        let f = file(d, &times, &edges);
        if let Ok(g) = look(&f) {
            return (f, g);
        }
    }
}

// A file with something wrong, of every kind that the refusal table knows, or with any byte changed.
pub fn damaged(d: &mut Dice, most: usize) -> Vec<u8> {
    let (mut times, mut edges) = graph(d, most);
    let n = times.len();
    let k = d.roll(edges.len());
    match d.roll(12) {
        0 => {
            let i = d.roll(n);
            times[i] = [0, 1_000_001, 4_294_967_295, 1_000_000][d.roll(4)];
        }
        1 => edges[k].0 = n + 1 + d.roll(200 - n),
        2 => edges[k].1 = if d.one_in(2) { 0 } else { n + 2 + d.roll(200 - n) },
        3 => edges[k].2 = 2 + d.roll(200) as u8,
        4 => {
            let v = 1 + d.roll(n);
            edges.retain(|e| e.0 != v && e.1 != v);
            edges.extend([(0, n + 1, 0), (0, n + 1, 0), (v, v, 1)]);
        }
        5 => {
            let v = d.roll(n + 2);
            edges.retain(|e| if v % 2 == 0 { e.0 != v } else { e.1 != v });
            while edges.len() < 2 {
                edges.push((0, n + 1, 0));
            }
        }
        6 => edges.push((edges[k].1.min(n), edges[k].0.max(1), 0)),
        7 => edges.push((edges[k].0, edges[k].1, 1 - edges[k].2)),
        _ => {}
    }
    edges.truncate(128);
    let mut f = file(d, &times, &edges);
    let end = f.len();
    match d.roll(10) {
        0 => f.truncate(d.roll(end + 1)),
        1 => f.extend(vec![0; d.roll(2100)]),
        2 => f[end - 1 - d.roll(16)] = d.roll(256) as u8,
        3 => f[end - 14] = [0, 40, 41, 255][d.roll(4)],
        4 => f[end - 10] = [0, 1, 2, 128, 129, 255][d.roll(6)],
        5 => {
            for _ in 0..1 + d.roll(3) {
                let at = d.roll(end);
                f[at] = d.roll(256) as u8;
            }
        }
        _ => {}
    }
    f
}

// A marking: reached by random firings, or nudged away from one, or of another length, or with large bytes.
pub fn marking(d: &mut Dice, g: &Graph) -> Vec<u8> {
    let mut m = g.start();
    for _ in 0..d.roll(60) {
        let ready: Vec<usize> = (0..g.transitions()).filter(|t| g.lacks(&m, *t).is_none()).collect();
        let t = ready[d.roll(ready.len())];
        g.fire(&mut m, t);
    }
    match d.roll(8) {
        0 => {
            let p = d.roll(m.len());
            m[p] = 1 - m[p];
        }
        1 => {
            let p = 3 * g.n() + 2 * d.roll(g.edges.len());
            m.swap(p, p + 1);
        }
        2 => {
            let p = d.roll(m.len());
            m[p] = d.roll(256) as u8;
        }
        3 => m.truncate(d.roll(m.len() + 1)),
        4 if d.one_in(4) => m.extend(vec![1; 1 + d.roll(3)]),
        _ => {}
    }
    m
}

// A list of transitions: mostly ones that are enabled when their turn comes.
pub fn list(d: &mut Dice, g: &Graph, m: &[u8]) -> Vec<u16> {
    let (mut m, mut out) = (m.to_vec(), Vec::new());
    let play = m.len() == g.places() && m.iter().all(|x| *x <= 1);
    for _ in 0..d.roll(25) {
        let t = match d.roll(30) {
            0 => d.roll(65536),
            1 => g.transitions() - 1 + d.roll(3),
            2 => d.roll(g.transitions()),
            _ if play => {
                let ready: Vec<usize> = (0..g.transitions()).filter(|t| g.lacks(&m, *t).is_none()).collect();
                if ready.is_empty() { 0 } else { ready[d.roll(ready.len())] }
            }
            _ => d.roll(g.transitions()),
        };
        if play && t < g.transitions() && g.lacks(&m, t).is_none() {
            g.fire(&mut m, t);
        }
        out.push(t as u16);
    }
    out
}
