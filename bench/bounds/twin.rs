// The same code as crates/fraction, order, sweep, tbo, tight, search and circuit in plain Rust, on graphs from standard input: rounds, 1 for the circuit too, then the graphs.
use std::io::Read;

pub const EDGES: usize = 128;
pub const OPERATIONS: usize = 40;
pub const TRANSITIONS: usize = 122;
pub const PLACES: usize = 376;
const ITEMS: usize = 168;
const NONE: usize = TRANSITIONS;

pub struct Graph {
    pub n: usize,
    pub e: usize,
    pub times: [u32; OPERATIONS],
    pub from: [u8; EDGES],
    pub to: [u8; EDGES],
    pub mark: [u8; EDGES],
}

fn write_of(a: u8) -> usize {
    3 * (a as usize)
}

fn read_of(b: u8) -> usize {
    3 * (b as usize) - 2
}

fn place_src(g: &Graph, p: usize) -> usize {
    if p < 3 * g.n {
        return p + 1;
    }
    let k = p - 3 * g.n;
    if k % 2 == 0 {
        return write_of(g.from[k / 2]);
    }
    read_of(g.to[k / 2])
}

fn time_of(g: &Graph, t: usize) -> u64 {
    if t % 3 == 2 {
        return g.times[t / 3] as u64;
    }
    0
}

fn token(g: &Graph, p: usize) -> u64 {
    if p < 3 * g.n {
        return (p % 3 == 2) as u64;
    }
    let k = p - 3 * g.n;
    if k % 2 == 0 {
        return g.mark[k / 2] as u64;
    }
    1 - g.mark[k / 2] as u64
}

fn gate(g: &Graph, x: usize) -> usize {
    if x >= 128 {
        return 3 * (x - 128) + 1;
    }
    if g.mark[x] == 0 {
        return write_of(g.from[x]);
    }
    read_of(g.to[x])
}

fn goal(g: &Graph, x: usize) -> usize {
    if x >= 128 {
        return 3 * (x - 128) + 3;
    }
    if g.mark[x] == 0 {
        return read_of(g.to[x]);
    }
    write_of(g.from[x])
}

fn pass(g: &Graph, force: bool, l: usize, c: usize, wait: &mut [u8; TRANSITIONS], left: &mut [u8; ITEMS], ord: &mut [u8; ITEMS]) -> (usize, usize) {
    let mut m = 0;
    let mut p = c;
    for i in 0..l {
        let x = left[i];
        if force || wait[gate(g, x as usize)] == 0 {
            let t = goal(g, x as usize);
            wait[t] = wait[t].saturating_sub(1);
            ord[p] = x;
            p += 1;
        } else {
            left[m] = x;
            m += 1;
        }
    }
    (m, p)
}

fn order(g: &Graph, ord: &mut [u8; ITEMS]) {
    let mut wait = [0u8; TRANSITIONS];
    let mut left = [0u8; ITEMS];
    for i in 0..g.n + g.e {
        let x = if i < g.e { i } else { i - g.e + 128 };
        left[i] = x as u8;
        let t = goal(g, x);
        wait[t] = wait[t].saturating_add(1);
    }
    let mut l = g.n + g.e;
    let mut c = 0;
    loop {
        let s = pass(g, false, l, c, &mut wait, &mut left, ord);
        c = s.1;
        if s.0 == l {
            pass(g, true, l, c, &mut wait, &mut left, ord);
            return;
        }
        l = s.0;
    }
}

fn raise(d: &mut [u64; TRANSITIONS], pred: &mut [u16; TRANSITIONS], s: usize, t: usize, p: usize, gain: u64, cost: u64, last: usize) -> usize {
    let up = d[s] + gain;
    if d[t] + cost < up {
        d[t] = up - cost;
        pred[t] = (p + 1) as u16;
        return t;
    }
    last
}

fn raise_item(g: &Graph, x: usize, a: u64, b: u64, d: &mut [u64; TRANSITIONS], pred: &mut [u16; TRANSITIONS], last: usize) -> usize {
    if x >= 128 {
        let p = 3 * (x - 128);
        let gain = b * g.times[x - 128] as u64;
        let u = raise(d, pred, p + 1, p + 2, p, 0, 0, last);
        let v = raise(d, pred, p + 2, p + 3, p + 1, gain, 0, u);
        return raise(d, pred, p + 3, p + 1, p + 2, 0, a, v);
    }
    let p = 3 * g.n + 2 * x;
    let u = write_of(g.from[x]);
    let v = read_of(g.to[x]);
    let full = a * g.mark[x] as u64;
    let empty = a * (1 - g.mark[x]) as u64;
    let y = raise(d, pred, u, v, p, 0, full, last);
    raise(d, pred, v, u, p + 1, 0, empty, y)
}

fn improve(g: &Graph, ord: &[u8; ITEMS], a: u64, b: u64, d: &mut [u64; TRANSITIONS]) -> Option<(u64, u64)> {
    let mut pred = [0u16; TRANSITIONS];
    loop {
        let mut v = NONE;
        for j in 0..g.n + g.e {
            v = raise_item(g, ord[j] as usize, a, b, d, &mut pred, v);
        }
        if v == NONE {
            return None;
        }
        let mut w = v;
        for _ in 0..3 * g.n + 2 {
            let q = pred[w] as usize;
            if q != 0 {
                w = place_src(g, q - 1);
            }
        }
        if pred[w] != 0 {
            let (mut x, mut t, mut m) = (w, 0, 0);
            loop {
                let p = pred[x] as usize - 1;
                x = place_src(g, p);
                t += time_of(g, x);
                m += token(g, p);
                if x == w {
                    return Some((t, m));
                }
            }
        }
    }
}

fn largest(g: &Graph, d: &mut [u64; TRANSITIONS]) -> (u64, u64) {
    let mut ord = [0u8; ITEMS];
    order(g, &mut ord);
    let mut best = 0;
    for i in 1..g.n {
        if g.times[best] < g.times[i] {
            best = i;
        }
    }
    let (mut a, mut b) = (g.times[best] as u64, 1);
    loop {
        *d = [0u64; TRANSITIONS];
        match improve(g, &ord, a, b, d) {
            None => return (a, b),
            Some((t, m)) => {
                a = t;
                b = m;
            }
        }
    }
}

fn reduce(a: u64, b: u64) -> (u64, u64) {
    let (mut x, mut y) = (a, b);
    while y != 0 {
        let r = x % y;
        x = y;
        y = r;
    }
    (a / x, b / x)
}

struct Lists {
    head: [u16; TRANSITIONS],
    next: [u16; PLACES],
    src: [u8; PLACES],
    dst: [u8; PLACES],
}

fn list_place(d: &[u64; TRANSITIONS], s: usize, t: usize, p: usize, gain: u64, cost: u64, l: &mut Lists) {
    if d[s] + gain != d[t] + cost {
        return;
    }
    l.next[p] = l.head[s];
    l.head[s] = p as u16;
    l.src[p] = s as u8;
    l.dst[p] = t as u8;
}

fn search(np: usize, l: &Lists, p: usize, via: &mut [u16; TRANSITIONS]) -> bool {
    let goal = l.src[p] as usize;
    let root = l.dst[p] as usize;
    let mut seen = [0u8; TRANSITIONS];
    let mut cur = l.head;
    seen[root] = 1;
    let mut x = root;
    loop {
        let q = cur[x] as usize;
        if q == np {
            cur[x] = (np + 1) as u16;
            if x == root {
                return false;
            }
            x = l.src[via[x] as usize - 1] as usize;
            continue;
        }
        cur[x] = l.next[q];
        let y = l.dst[q] as usize;
        if y == goal {
            via[y] = (q + 1) as u16;
            return true;
        }
        if seen[y] != 0 {
            continue;
        }
        seen[y] = 1;
        via[y] = (q + 1) as u16;
        x = y;
    }
}

fn choose(g: &Graph, a: u64, b: u64, d: &[u64; TRANSITIONS], ring: &mut [u16]) -> usize {
    let np = 3 * g.n + 2 * g.e;
    let mut l = Lists { head: [np as u16; TRANSITIONS], next: [0; PLACES], src: [0; PLACES], dst: [122; PLACES] };
    for k in (0..g.e).rev() {
        let p = 3 * g.n + 2 * k;
        let u = write_of(g.from[k]);
        let v = read_of(g.to[k]);
        list_place(d, v, u, p + 1, 0, a * (1 - g.mark[k]) as u64, &mut l);
        list_place(d, u, v, p, 0, a * g.mark[k] as u64, &mut l);
    }
    for i in (0..g.n).rev() {
        let p = 3 * i;
        list_place(d, p + 3, p + 1, p + 2, 0, a, &mut l);
        list_place(d, p + 2, p + 3, p + 1, b * g.times[i] as u64, 0, &mut l);
        list_place(d, p + 1, p + 2, p, 0, 0, &mut l);
    }
    let mut via = [0u16; TRANSITIONS];
    let mut p = 0;
    while p < np {
        if l.dst[p] != 122 && search(np, &l, p, &mut via) {
            break;
        }
        p += 1;
    }
    let goal = l.src[p] as usize;
    let root = l.dst[p] as usize;
    let mut len = 1;
    let mut x = goal;
    while x != root {
        x = l.src[via[x] as usize - 1] as usize;
        len += 1;
    }
    let mut k = len;
    x = goal;
    while x != root {
        let q = via[x] as usize - 1;
        k -= 1;
        ring[k] = q as u16;
        x = l.src[q] as usize;
    }
    ring[0] = p as u16;
    len
}

// Calls it as often as standard input says on each of its graphs, and prints the sum of what it says.
pub fn timed(mut solve: impl FnMut(&Graph, bool) -> u64) {
    let mut text = String::new();
    std::io::stdin().read_to_string(&mut text).unwrap();
    let mut words = text.split_ascii_whitespace().map(|w| w.parse::<u64>().unwrap());
    let rounds = words.next().unwrap();
    let both = words.next().unwrap();
    let mut sum: u64 = 0;
    while let Some(n) = words.next() {
        let e = words.next().unwrap();
        let mut g = Graph { n: n as usize, e: e as usize, times: [0; OPERATIONS], from: [0; EDGES], to: [0; EDGES], mark: [0; EDGES] };
        for i in 0..g.n {
            g.times[i] = words.next().unwrap() as u32;
        }
        for k in 0..g.e {
            g.from[k] = words.next().unwrap() as u8;
            g.to[k] = words.next().unwrap() as u8;
            g.mark[k] = words.next().unwrap() as u8;
        }
        for _ in 0..rounds {
            sum += solve(std::hint::black_box(&g), both == 1);
        }
    }
    println!("{}", sum);
}

fn main() {
    let mut d = [0u64; TRANSITIONS];
    let mut ring = [0u16; TRANSITIONS];
    timed(|g, both| {
        let q = largest(g, &mut d);
        let l = reduce(q.0, q.1);
        let mut sum = l.0 + 1000 * l.1;
        if both {
            let k = choose(g, q.0, q.1, &d, &mut ring);
            sum += 7 * k as u64 + 11 * ring[0] as u64 + 13 * ring[k - 1] as u64;
        }
        sum
    });
}
