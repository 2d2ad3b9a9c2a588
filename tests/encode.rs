// The one encoder of graph files for all of tests/: README's layout, and nothing about what is allowed in it.

// From, to and mark.
pub type Edge = (usize, usize, u8);

// The bytes of a file: both tables, the operations first or the edges first, and the trailer.
pub fn file(times: &[u64], labels: &[[u8; 8]], edges: &[Edge], edges_first: bool) -> Vec<u8> {
    let operations: Vec<u8> = times.iter().zip(labels).flat_map(|(t, l)| [&(*t as u32).to_le_bytes()[..], l].concat()).collect();
    let rows: Vec<u8> = edges.iter().flat_map(|(a, b, m)| [*a as u8, *b as u8, *m, 0]).collect();
    let (at, edges_at) = if edges_first { (rows.len(), 0) } else { (0, operations.len()) };
    let mut f = if edges_first { [rows, operations].concat() } else { [operations, rows].concat() };
    let back = f.len();
    for x in [at, times.len(), edges_at, edges.len(), back] {
        f.extend((x as u16).to_le_bytes());
    }
    f.extend(b"\x01\x00AMG1");
    f
}

// The same, operations first; a label is its operation's number, as samples/make writes it.
pub fn plain(times: &[u64], edges: &[Edge]) -> Vec<u8> {
    file(times, &labels(times.len(), |i| format!("{:<8}", i + 1)), edges, false)
}

// Labels from texts: eight bytes each, zeros behind a shorter one.
pub fn labels(n: usize, text: impl Fn(usize) -> String) -> Vec<[u8; 8]> {
    let label = |t: String| {
        let mut l = [0; 8];
        t.bytes().zip(&mut l).for_each(|(byte, to)| *to = byte);
        l
    };
    (0..n).map(|i| label(text(i))).collect()
}

// A line of samples/graphs.txt: `name: times; edges`, a star marks an edge.
pub fn parse(line: &str) -> (Vec<u64>, Vec<Edge>) {
    let (times, edges) = line.split_once(':').expect("a name").1.split_once(';').expect("times");
    let times = times.split(',').map(|t| t.trim().parse().expect("a time")).collect();
    let edge = |e: &str| {
        let (a, b) = e.trim().trim_end_matches('*').split_once('-').expect("an edge");
        (a.parse().expect("from"), b.parse().expect("to"), e.ends_with('*') as u8)
    };
    (times, edges.split(',').map(edge).collect())
}
