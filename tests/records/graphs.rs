// The graphs of the records: the worked ones, further ones as text, and families that reach the limits.
use crate::encode::{Edge, parse, plain};
use std::fs;

// Times and edges.
pub type Graph = (Vec<u64>, Vec<Edge>);

// The graphs of a text, each with its name.
fn text(path: &str) -> Vec<(String, Graph)> {
    let lines = fs::read_to_string(path).expect("the graphs");
    let name = |l: &str| l.split(':').next().expect("a name").to_string();
    lines.lines().filter(|l| !l.starts_with('#')).map(|l| (name(l), parse(l))).collect()
}

// P1 to P6, P9, P10, S and S2.
pub fn worked() -> Vec<(String, Graph)> {
    text("samples/graphs.txt")
}

pub fn further() -> Vec<(String, Graph)> {
    text("tests/records/graphs.txt")
}

// A graph of either text, by its name.
pub fn named(name: &str) -> Graph {
    worked().into_iter().chain(further()).find(|x| x.0 == name).expect("a graph of that name").1
}

// The file of a worked graph, which is the one in samples/ to the byte.
pub fn sample(name: &str) -> Vec<u8> {
    let (times, edges) = named(name);
    let f = plain(&times, &edges);
    assert!(f == fs::read(format!("samples/{name}.amg")).expect("a sample"), "{name} is encoded as samples/make does it");
    f
}

// Times from 1 to 101, mixed.
pub fn mixed(n: usize) -> Vec<u64> {
    (1..=n as u64).map(|t| 1 + 37 * t % 101).collect()
}

// A chain of n operations from source to sink, with e edges in all: its own, and then each again.
pub fn chain(n: usize, e: usize) -> Vec<Edge> {
    (0..e).map(|k| k % (n + 1)).map(|k| (k, k + 1, 0)).collect()
}

// A ring of n operations with a mark on each edge that `marked` names, beside the edges from the source and to the sink.
pub fn ring(n: usize, marked: fn(usize) -> bool) -> Vec<Edge> {
    let mut e: Vec<Edge> = vec![(0, 1, 0)];
    e.extend((1..=n).map(|k| (k, k % n + 1, marked(k) as u8)));
    e.push((n, n + 1, 0));
    e
}

// Operations in layers of equal size, each joined to all of the next layer, and the last layer back to the first: many circuits, of equal time where times
// are equal. At most 128 edges are kept.
pub fn layers(deep: usize, wide: usize) -> (usize, Vec<Edge>) {
    let n = deep * wide;
    let mut e: Vec<Edge> = (1..=wide).map(|v| (0, v, 0)).collect();
    for k in 1..deep {
        for a in 1..=wide {
            e.extend((1..=wide).map(|b| ((k - 1) * wide + a, k * wide + b, 0)));
        }
    }
    e.extend((n - wide + 1..=n).map(|v| (v, n + 1, 0)));
    e.extend((1..=wide).map(|v| (n - wide + v, v, 1)));
    e.truncate(128);
    (n, e)
}

// 40 operations and 128 edges: a chain, and 87 edges between pairs of operations. One that does not lead forward is marked, so no circuit is dead.
fn crossed(mut pair: impl FnMut(usize) -> (usize, usize)) -> Vec<Edge> {
    let mut edges = chain(40, 41);
    edges.extend((0..87).map(|k| {
        let (a, b) = pair(k);
        (a, b, (b <= a) as u8)
    }));
    edges
}

// The largest graph of the bounds: pairs in a pattern.
pub fn woven() -> Vec<Edge> {
    crossed(|k| (1 + 7 * k % 40, 1 + 11 * k % 40))
}

// The largest graph of the benchmarks, that of bench/net at seed `A` (65): pairs drawn by a small generator.
pub fn largest() -> Graph {
    let mut x = 65;
    let mut next = || {
        x = (x * 75 + 74) % 65537;
        1 + x % 40
    };
    ((0..40).map(|i| 1_000_000 - 7 * i).collect(), crossed(|_| (next(), next())))
}
