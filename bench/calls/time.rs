// time MILLISECONDS FILE...: the time of each case. A `.call` file is a record of docs/CALLS.md; of an `.amg` file every call is made, from the start.
// A line for each: name, letter, the refusal's number and place, nanoseconds.
#[allow(dead_code)]
mod calls;
use calls::{Case, Copy, number, place};
use std::time::Duration;

// Every call on a file: the firings of one packet, the lowest enabled first; step and wait of the last transition, which is refused last and waits longest.
fn every(file: Vec<u8>) -> Vec<Case> {
    let mut copy = Copy::new();
    let look = Case { letter: b'L', file, ..Case::default() };
    if number(look.make(&mut copy)) != 0 {
        return vec![look];
    }
    let (n, e) = (copy.counts[0] as usize, copy.counts[1] as usize);
    let start = Case { letter: b'S', marking: vec![0; 3 * n + 2 * e], ..look.clone() };
    start.make(&mut copy);
    let marking = copy.marking[..3 * n + 2 * e].to_vec();
    let (mut fired, mut list, mut at) = (vec![false; 3 * n + 2], Vec::new(), marking.clone());
    while list.len() < 3 * n + 2 {
        let found = (0..3 * n + 2).filter(|t| !fired[*t]).find(|t| {
            let step = Case { letter: b'T', list: vec![*t as u16], marking: at.clone(), ..look.clone() };
            number(step.make(&mut copy)) == 0
        });
        let Some(t) = found else { break };
        at = copy.marking[..3 * n + 2 * e].to_vec();
        fired[t] = true;
        list.push(t as u16);
    }
    let sink = vec![3 * n as u16 + 1];
    let source = vec![0];
    vec![
        start.clone(),
        Case { letter: b'T', list: source, marking: marking.clone(), ..look.clone() },
        Case { letter: b'R', list, marking: marking.clone(), ..look.clone() },
        Case { letter: b'W', list: sink, marking, ..look.clone() },
        Case { letter: b'B', list: vec![0; 122], ..look.clone() },
        Case { letter: b'P', ..look.clone() },
        look,
    ]
}

fn main() {
    let words: Vec<String> = std::env::args().skip(1).collect();
    let total = Duration::from_millis(words[0].parse().expect("milliseconds"));
    let mut copy = Copy::new();
    for name in &words[1..] {
        let bytes = std::fs::read(name).expect("a case");
        let cases = if name.ends_with(".call") { vec![Case::of(&bytes).expect("a record")] } else { every(bytes) };
        for case in cases {
            let word = case.make(&mut copy);
            let short = name.rsplit('/').next().unwrap_or(name);
            println!("{short} {} {} {} {:.1}", case.letter as char, number(word), place(word), case.time(&mut copy, total));
        }
    }
}
