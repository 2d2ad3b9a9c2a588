// The files that are looked at: every worked graph in both layouts, the limits on both sides, each refusal at a place that is not the first, and two files
// damaged one byte at a time.
use crate::encode::{file, labels, parse};
use crate::graphs::{Graph, chain, largest, named, worked};

// Operations first and labels that begin with `label`, or turned: edges first, and other labels.
pub fn amg((times, edges): &Graph, turned: bool) -> Vec<u8> {
    let word = if turned { "other" } else { "label" };
    file(times, &labels(times.len(), |i| format!("{word}{i}")), edges, turned)
}

fn set(f: &[u8], at: usize, byte: u8) -> Vec<u8> {
    let mut f = f.to_vec();
    f[at] = byte;
    f
}

fn graph(text: &str) -> Vec<u8> {
    amg(&parse(&format!("a graph: {text}")), false)
}

// A chain with times that rise.
fn rising(n: usize, e: usize) -> Graph {
    ((0..n as u64).map(|i| 1 + 7 * i).collect(), chain(n, e))
}

// The limits, on both sides.
fn limits() -> Vec<Vec<u8>> {
    let long = rising(40, 128);
    let mut all = vec![amg(&long, false), file(&long.0, &labels(40, |i| format!("label{i}")), &long.1, true), amg(&largest(), false)];
    all.extend([amg(&rising(41, 128), false), amg(&rising(40, 129), false)]);
    all.extend([amg(&(vec![], vec![(0, 1, 0), (0, 1, 0)]), false), amg(&(vec![1], vec![(0, 1, 0)]), false)]);
    for time in [0, 1, 1_000_000, 1_000_001, (1 << 32) - 1] {
        all.push(amg(&(vec![7, time, 9], named("P3").1), false));
    }
    let p1 = amg(&named("P1"), false);
    let trailer = &p1[p1.len() - 16..];
    all.extend([Vec::new(), trailer[1..].to_vec(), trailer.to_vec()]);
    for length in [2048, 2049] {
        all.push([&vec![0; length - 16][..], trailer].concat());
        all.push([&vec![0; length - 4][..], b"AMG1"].concat());
    }
    all
}

// Each refusal at a place that is not the first, and what is odd but allowed.
fn places() -> Vec<Vec<u8>> {
    let p3 = amg(&named("P3"), false);
    let edges = [(3, 0, 4), (3, 0, 5), (2, 1, 0), (2, 1, 4), (2, 1, 5), (4, 2, 2), (1, 3, 1)];
    let mut all: Vec<Vec<u8>> = edges.iter().map(|(k, byte, new)| set(&p3, 12 * 3 + 4 * k + byte, *new)).collect();
    let further = [
        "1, 1; 0-1, 1-3",
        "1, 1, 1; 0-1, 1-4, 2-4, 0-3",
        "1, 1; 0-1, 1-2, 2-1*",
        "1, 1, 1; 0-1, 1-4, 2-3, 3-2*",
        "1, 1, 1; 0-1, 1-2, 2-3, 3-2, 3-4",
        "1, 1, 1; 0-1, 1-2*, 2-3, 2-3*, 3-4",
        // an edge from the source to the sink, and one that is both marked and doubled
        "3; 0-1, 0-2, 1-2",
        "3; 0-1*, 0-1*, 1-2*",
    ];
    all.extend(further.map(graph));
    // tables with a gap, overlapping, or past the file; another distance back
    let p1 = amg(&named("P1"), false);
    for (at, new) in [(0, 1), (0, 12), (4, 8), (4, 13), (4, 255), (8, 19), (8, 21)] {
        all.push(set(&p1, p1.len() - 16 + at, new));
    }
    all
}

// P1, and P3 with its edges first, damaged one byte at a time.
fn damaged() -> Vec<Vec<u8>> {
    let (times, edges) = named("P3");
    let turned = file(&times, &labels(3, |i| format!("label{i}")), &edges, true);
    let mut all = Vec::new();
    for f in [amg(&named("P1"), false), turned] {
        for at in 0..f.len() {
            all.extend([0, f[at] ^ 1, f[at].wrapping_add(2), 255].map(|new| set(&f, at, new)));
        }
    }
    all
}

pub fn files() -> Vec<Vec<u8>> {
    let both = worked().into_iter().flat_map(|(_, g)| [amg(&g, false), amg(&g, true)]);
    both.chain(limits()).chain(places()).chain(damaged()).collect()
}
