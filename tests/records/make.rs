// Writes the records that calls_main and plays_main read (their stdin) and the lines they must print (their stdout), P3 and its report for report_main, and
// the largest file for bench/reader. Every line is as the model of tests/differential answers, which tells docs/MODEL.md by other means than the proved code.
mod bounds;
#[path = "../differential/calls.rs"]
#[allow(dead_code)]
mod calls;
#[path = "../encode.rs"]
mod encode;
mod graphs;
mod looks;
mod markings;
#[path = "../differential/model.rs"]
#[allow(dead_code)]
mod model;

use calls::{CAP, call};
use graphs::{largest, sample};
use model::look;
use std::fs;

// The programs read no more.
const INPUT: usize = 60_000;

// Records, and the line of each.
#[derive(Default)]
pub struct Book {
    records: Vec<u8>,
    lines: String,
    numbers: Vec<u8>,
}

impl Book {
    // One call.
    pub fn make(&mut self, letter: u8, f: &[u8], list: &[u16], m: &[u8]) {
        self.play(letter, f, list, &mut m.to_vec());
    }

    // One call of a start, a step or a run, which leaves the marking as the model does.
    pub fn play(&mut self, letter: u8, f: &[u8], list: &[u16], m: &mut [u8]) {
        let made = call(letter, f, list, m);
        self.records.extend(&made.record);
        self.lines += &format!("{}\n", made.expected);
        self.numbers.push(made.refusal);
        if b"STR".contains(&letter) {
            m.iter_mut().zip(&made.reply.memory).for_each(|(to, byte)| *to = *byte as u8);
        }
    }

    // Bytes that are no whole record of a call: they end the output.
    fn cut(&mut self, bytes: &[u8]) {
        self.records.extend(bytes);
        self.lines += "cut\n";
    }

    fn write(&self, program: &str) {
        assert!((0..=14).all(|k| self.numbers.contains(&k)), "{program}: every refusal is there");
        assert!(self.records.len() <= INPUT, "{program}: it reads no more");
        write(&format!("crates/{program}/stdin"), &self.records);
        write(&format!("crates/{program}/stdout"), self.lines.as_bytes());
        println!("{program}: {} calls, {} bytes", self.numbers.len(), self.records.len());
    }
}

fn write(path: &str, bytes: &[u8]) {
    fs::write(path, bytes).expect("a file of the repository");
}

fn start(f: &[u8]) -> Vec<u8> {
    look(f).expect("an accepted graph").start()
}

// Every call on P1 to P4, as one would try it by hand.
fn by_hand(book: &mut Book) {
    let [p1, p2, p3, p4] = ["P1", "P2", "P3", "P4"].map(sample);
    let (m1, m3) = (start(&p1), start(&p3));
    let (mut two, mut seven) = (m1.clone(), start(&p2));
    two[4] = 2;
    (seven[10], seven[11]) = (0, 1);
    let calls: &[(u8, &[u8], &[u16], &[u8])] = &[
        (b'L', &p1, &[], &[]),
        (b'L', &p3, &[], &[]),
        (b'L', &p4, &[], &[]),
        (b'L', &p1[1..], &[], &[]),
        (b'L', &[], &[], &[]),
        (b'S', &p1, &[], &[9; 7]),
        (b'S', &p3, &[], &[255; 19]),
        (b'S', &p3, &[], &[255; 18]),
        (b'S', &p4, &[], &[7; 14]),
        (b'T', &p1, &[0], &m1),
        (b'T', &p1, &[1], &m1),
        (b'T', &p1, &[5], &m1),
        (b'T', &p1, &[], &m1),
        (b'T', &p1, &[0], &two),
        (b'T', &p2, &[0], &seven),
        (b'R', &p1, &[0, 1, 2, 3, 0, 4], &m1),
        (b'R', &p1, &[0, 1, 3, 2], &m1),
        (b'R', &p1, &[], &m1),
        (b'R', &p3, &[0, 7, 8, 9, 10, 1, 2, 9], &m3),
        (b'R', &p2, &[0, 1], &seven),
        (b'W', &p1, &[0], &m1),
        (b'W', &p1, &[1], &m1),
        (b'W', &p1, &[2], &m1),
        (b'W', &p1, &[3], &m1),
        (b'W', &p1, &[4], &m1),
        (b'W', &p1, &[5], &m1),
        (b'W', &p3, &[7, 1], &m3),
        (b'W', &p2, &[0], &seven),
        (b'B', &p1, &[500; 5], &[]),
        (b'B', &p1, &[500; 4], &[]),
        (b'B', &p3, &[65535; 13], &[1, 2]),
        (b'B', &p4, &[3], &[]),
        (b'P', &p1, &[], &[]),
        (b'P', &p1, &[], &[1; 20]),
        (b'P', &p4, &[], &[]),
    ];
    for (letter, f, list, m) in calls {
        book.make(*letter, f, list, m);
    }
}

// The limits of the model, as `limits_main` prints those of the proved code.
fn limits() -> String {
    use model::*;
    format!(
        "operations {FEWEST_OPERATIONS} {OPERATIONS}\nedges {FEWEST_EDGES} {EDGES}\ntime {SHORTEST_TIME} {TIME}\nlength {SHORTEST} {LENGTH}\n"
    )
}

fn main() {
    bounds::as_printed();

    let mut book = Book::default();
    by_hand(&mut book);
    for f in looks::files() {
        book.make(b'L', &f, &[], &[]);
    }
    // a record whose last byte is missing
    let whole = call(b'S', &sample("P1"), &[], &[0; 7]).record;
    book.cut(&whole[..whole.len() - 1]);
    book.write("calls_main");

    let mut book = Book::default();
    markings::write(&mut book);
    bounds::write(&mut book);
    bounds::reports(&mut book);
    // a letter that is no call's; what stands behind it is not played
    book.cut(&[&b"X"[..], &whole[1..], &whole].concat());
    book.write("plays_main");

    write("crates/report_main/stdin", &sample("P3"));
    write("crates/report_main/stdout", model::report(&sample("P3"), CAP).as_bytes());
    write("crates/limits_main/stdout", limits().as_bytes());
    write("bench/reader/largest.amg", &looks::amg(&largest(), false));
}
