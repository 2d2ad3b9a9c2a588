// The differential test: random inputs go through the proved programs `calls_main` and `report_main`, through the program in C over the
// archive, and through the model; every line must agree.
// Arguments: how many rounds, the seed, the program in C (`-` where there is none), and the folder of the proved programs.
mod calls;
#[path = "../encode.rs"]
#[allow(dead_code)]
mod encode;
mod inputs;
mod model;
mod words;

use calls::{CAP, Call, call};
use inputs::Dice;
use model::look;
use std::io::Write;
use std::process::{Command, Stdio};

fn random_call(d: &mut Dice, most: usize) -> Call {
    let letter = b"LSTRWBPTRW"[d.roll(10)];
    if d.one_in(3) {
        let f = inputs::damaged(d, most);
        let (long, short) = (d.roll(40), d.roll(5));
        let m: Vec<u8> = (0..long).map(|_| d.roll(3) as u8).collect();
        let list: Vec<u16> = (0..short).map(|_| d.roll(200) as u16).collect();
        return call(letter, &f, &list, &m);
    }
    let (f, g) = inputs::accepted(d, most);
    let m = match letter {
        b'P' if d.one_in(8) => vec![0; 1 + d.roll(4095)],
        b'P' => Vec::new(),
        _ => inputs::marking(d, &g),
    };
    let list = match letter {
        b'B' => vec![d.roll(65536) as u16; g.transitions() + d.roll(4) - d.roll(2)],
        _ => inputs::list(d, &g, &m),
    };
    call(letter, &f, &list, &m)
}

// What a program prints for an input.
fn through(program: &str, input: &[u8]) -> String {
    let mut child = Command::new(program).stdin(Stdio::piped()).stdout(Stdio::piped()).spawn().expect("the program starts");
    let mut stdin = child.stdin.take().expect("standard input");
    let input = input.to_vec();
    let feed = std::thread::spawn(move || stdin.write_all(&input));
    let out = child.wait_with_output().expect("the program ends");
    feed.join().expect("the input was taken").ok();
    assert!(out.status.success(), "{program} ended with {}", out.status);
    String::from_utf8(out.stdout).expect("text")
}

// Each line that is printed must be the one that the model expects.
fn agree(printed: &str, expected: &[&str], records: &[&[u8]], at: &str) {
    for (k, (line, right)) in printed.lines().chain(std::iter::repeat("nothing")).zip(expected).enumerate() {
        assert!(line == *right, "{at} call {k}\nexpected {right}\nprinted  {line}\nrecord {:?}", records[k]);
    }
    assert_eq!(printed.lines().count(), expected.len(), "{at}: a line for each record");
}

fn main() {
    let words: Vec<String> = std::env::args().skip(1).collect();
    let (rounds, seed): (usize, u64) = (words[0].parse().expect("rounds"), words[1].parse().expect("seed"));
    let (in_c, folder) = (&words[2], &words[3]);
    let program = |name: &str| format!("{folder}/{name}");
    let with_c = in_c != "-";
    let mut d = Dice(seed.wrapping_mul(2654435769).max(1));
    let mut seen = [0usize; 15];
    let mut calls = 0;
    for round in 0..rounds {
        let most = [3, 4, 6, 12, 40][round % 5];
        let at = format!("seed {seed} round {round}");
        let mut batch: Vec<Call> = Vec::new();
        let mut size = 0;
        loop {
            let c = random_call(&mut d, most);
            if size + c.record.len() > 60_000 || batch.len() == 60 {
                break;
            }
            size += c.record.len();
            seen[c.refusal as usize] += 1;
            batch.push(c);
        }
        let records: Vec<&[u8]> = batch.iter().map(|c| &c.record[..]).collect();
        let expected: Vec<&str> = batch.iter().map(|c| &c.expected[..]).collect();
        agree(&through(&program("calls_main"), &records.concat()), &expected, &records, &at);
        if with_c {
            let lines: Vec<String> = batch.iter().map(|c| words::word(&c.reply)).collect();
            let expected: Vec<&str> = lines.iter().map(|l| &l[..]).collect();
            agree(&through(in_c, &records.concat()), &expected, &records, &format!("{at} in C"));
        }
        calls += batch.len();
        let f = if d.one_in(2) { inputs::damaged(&mut d, most) } else { inputs::accepted(&mut d, most).0 };
        let text = through(&program("report_main"), &f);
        assert!(text == model::report(&f, CAP), "{at}: report of {f:?}\n{text}");
        // the label rule: other labels, the same reply
        if let Ok(g) = look(&f) {
            let again = inputs::file(&mut d, &g.times, &g.edges);
            assert!(text == through(&program("report_main"), &again), "{at}: labels mattered");
        }
    }
    println!("seed {seed}: {calls} calls and {rounds} reports agree{}", if with_c { ", and the calls from C" } else { "" });
    println!("done {}; refused by 1 to 14: {:?}", seen[0], &seen[1..]);
}
