// Writes the records that tests/c/calls.c reads (records) and the lines it must print (lines), as the model of tests/differential answers them.
#[path = "../differential/calls.rs"]
#[allow(dead_code)]
mod calls;
#[path = "../encode.rs"]
#[allow(dead_code)]
mod encode;
#[path = "../differential/inputs.rs"]
#[allow(dead_code)]
mod inputs;
#[path = "../differential/model.rs"]
#[allow(dead_code)]
mod model;
#[path = "../differential/words.rs"]
mod words;

use calls::{call, run, start};
use inputs::Dice;
use model::look;
use std::fs;

const SAMPLES: [&str; 10] = ["P1", "P2", "P3", "P4", "P5", "P6", "P9", "P10", "S", "S2"];

#[derive(Default)]
struct Book {
    records: Vec<u8>,
    lines: String,
}

impl Book {
    fn make(&mut self, letter: u8, f: &[u8], list: &[u16], m: &[u8]) {
        let made = call(letter, f, list, m);
        self.records.extend(&made.record);
        self.lines += &words::word(&made.reply);
        self.lines.push('\n');
    }

    // Every call on one file: done where the file is accepted, with each refusal that the call can give beside.
    fn all(&mut self, f: &[u8]) {
        let (places, transitions) = look(f).map_or((7, 5), |g| (g.places(), g.transitions()));
        let mut m = vec![0; places];
        let _ = start(f, &mut m);
        self.make(b'L', f, &[], &[]);
        self.make(b'S', f, &[], &vec![170; places]);
        let list: Vec<u16> = (0..transitions as u16).collect();
        for letter in *b"TRW" {
            self.make(letter, f, &list, &m);
            self.make(letter, f, &list[1..], &m);
        }
        let fired = run(f, &mut m, &[0]).1 as u16;
        self.make(b'T', f, &[fired], &m);
        self.make(b'W', f, &[transitions as u16 - 1], &m);
        self.make(b'B', f, &vec![9; transitions + 1], &[]);
        self.make(b'P', f, &[], &[]);
    }

    // The edges of what is lent: too long, too short, nothing at all (NULL in C), bytes above 1, numbers too high.
    fn edges(&mut self, f: &[u8]) {
        let (places, transitions) = look(f).map_or((7, 5), |g| (g.places(), g.transitions()));
        for long in [0, places - 1, places + 1] {
            for letter in *b"STRW" {
                self.make(letter, f, &[], &vec![1; long]);
            }
        }
        for letter in *b"TRW" {
            self.make(letter, f, &[0], &vec![2; places]);
            self.make(letter, f, &[0], &vec![1; places]);
            for wrong in [transitions as u16, 65535] {
                let mut m = vec![0; places];
                let _ = start(f, &mut m);
                self.make(letter, f, &[wrong], &m);
                self.make(letter, f, &[], &m);
            }
        }
        for entries in [0, transitions - 1, transitions] {
            self.make(b'B', f, &vec![65535; entries], &[]);
        }
        self.make(b'P', f, &[], &[0; 4095]);
        self.make(b'Z', f, &[], &[]);
    }
}

// 40 operations, 128 edges, the longest times: the largest graph.
fn largest() -> Vec<u8> {
    let edges: Vec<encode::Edge> = (0..128).map(|k| (k % 41, k % 41 + 1, 0)).collect();
    encode::plain(&[model::TIME; 40], &edges)
}

fn main() {
    let mut book = Book::default();
    let samples = SAMPLES.map(|name| fs::read(format!("samples/{name}.amg")).expect("a sample"));
    for f in &samples {
        book.all(f);
    }
    book.all(&largest());
    for k in [0, 2, 3] {
        book.edges(&samples[k]);
    }
    // no file at all; files that are damaged
    book.all(&[]);
    book.edges(&[]);
    let mut d = Dice(20_261_115);
    for k in 0..120 {
        let f = inputs::damaged(&mut d, [3, 6, 12][k % 3]);
        let letter = b"LSTRWBP"[k % 7];
        let list = vec![d.roll(12) as u16; d.roll(60)];
        book.make(letter, &f, &list, &vec![1; d.roll(40)]);
        book.make(b'L', &f, &[], &[]);
    }
    let numbers: Vec<u8> = book.lines.lines().map(|l| l.split(' ').nth(1).and_then(|n| n.parse().ok()).expect("a number")).collect();
    assert!((0..=14).all(|k| numbers.contains(&k)), "every refusal is there");
    println!("{} calls, {} bytes of records", numbers.len(), book.records.len());
    fs::write("tests/c/records", book.records).expect("the records are written");
    fs::write("tests/c/lines", book.lines).expect("the lines are written");
}
