// Markings that are started, stepped, run and waited for, from the first packet to every refusal of 1 to 13.
use crate::Book;
use crate::encode::file;
use crate::graphs::{chain, sample};
use crate::model::{Graph, look};

// Start, step, run and wait, each on the same marking.
fn all(book: &mut Book, f: &[u8], list: &[u16], m: &[u8]) {
    for letter in *b"STRW" {
        book.make(letter, f, list, m);
    }
}

// Firings of k packets, the lowest enabled transition first: the source runs ahead as far as it can.
fn packets(g: &Graph, k: usize) -> Vec<u16> {
    let mut m = g.start();
    let mut fired = vec![0; g.transitions()];
    let mut list = Vec::new();
    while let Some(t) = (0..g.transitions()).find(|t| fired[*t] < k && g.lacks(&m, *t).is_none()) {
        g.fire(&mut m, t);
        fired[t] += 1;
        list.push(t as u16);
    }
    assert!(m == g.start() && fired.iter().all(|x| *x == k), "every packet is through");
    list
}

// P8; then P1's transitions in turn, one packet, back to the start.
fn first_packet(book: &mut Book) {
    let p1 = sample("P1");
    let mut m = vec![170; 7];
    book.play(b'S', &p1, &[], &mut m);
    book.play(b'T', &p1, &[1], &mut m);
    for t in 0..5 {
        book.play(b'T', &p1, &[t], &mut m);
    }
}

// P7: refused 11, though every pair sums to one.
fn unreached(book: &mut Book) {
    let p2 = sample("P2");
    let mut m = vec![0; 14];
    book.play(b'S', &p2, &[], &mut m);
    (m[10], m[11]) = (0, 1);
    for (letter, list) in [(b'T', &[99][..]), (b'R', &[0, 1]), (b'W', &[99])] {
        book.make(letter, &p2, list, &m);
    }
}

// S: six packets and back to the start, in one run and in two, with every wait between them.
fn six_packets(book: &mut Book) {
    let s = sample("S");
    let list = packets(&look(&s).expect("S is accepted"), 6);
    let mut m = vec![9; 38];
    book.play(b'S', &s, &[], &mut m);
    book.play(b'R', &s, &list, &mut m);
    book.play(b'R', &s, &list[..50], &mut m);
    for t in 0..20 {
        book.make(b'W', &s, &[t], &m);
    }
    book.play(b'R', &s, &list[50..], &mut m);
    // refused at the first, a middle and the last entry, by 13 and by 12; and no entry
    for wrong in [19, 20, 65535] {
        for at in [0, 23, 46] {
            let mut entries = list[..46].to_vec();
            entries.insert(at, wrong);
            book.make(b'R', &s, &entries, &m);
        }
    }
    book.make(b'R', &s, &[], &m);
    // 10 comes before 11, 11 before 12, 12 before 13
    for long in [0, 37, 39] {
        all(book, &s, &[20], &vec![0; long]);
    }
    let mut high = m.clone();
    high[0] = 2;
    all(book, &s, &[20], &high);
    all(book, &s, &[20], &[1; 38]);
    all(book, &s, &[20], &m);
    all(book, &s, &[19], &m);
}

// 1 to 9, before anything is asked of the marking.
fn refused(book: &mut Book) {
    let p1 = sample("P1");
    let mut files = vec![Vec::new(), p1[1..].to_vec()];
    files.extend(["P4", "P6", "P9", "P10"].map(sample));
    for (at, byte) in [(30, 2), (22, 0), (28, 1), (0, 0), (12, 3)] {
        let mut f = p1.clone();
        f[at] = byte;
        files.push(f);
    }
    for f in &files {
        all(book, f, &[99], &[3; 7]);
    }
    book.make(b'T', &[0; 2049], &[99], &[3; 7]);
}

// The largest graph, a chain whose edges stand three and four times: two packets, and waits on the way.
fn longest(book: &mut Book) {
    let times: Vec<u64> = (1..=40).map(|i| 25_000 * i).collect();
    let f = file(&times, &[*b"a  chain"; 40], &chain(40, 128), false);
    let list = packets(&look(&f).expect("the largest graph is accepted"), 2);
    let mut m = vec![0; 376];
    book.play(b'S', &f, &[], &mut m);
    book.play(b'R', &f, &list[..100], &mut m);
    for t in [0, 121] {
        book.make(b'W', &f, &[t], &m);
    }
    book.play(b'T', &f, &list[100..], &mut m);
    book.play(b'R', &f, &list[101..], &mut m);
}

pub fn write(book: &mut Book) {
    first_packet(book);
    unreached(book);
    six_packets(book);
    refused(book);
    longest(book);
}
