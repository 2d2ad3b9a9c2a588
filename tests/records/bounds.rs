// Files whose bounds are asked for, and those whose report is: with buffers that are too short, just long enough and longer.
use crate::Book;
use crate::calls::CAP;
use crate::encode::plain;
use crate::graphs::{chain, further, largest, layers, mixed, named, ring, sample, worked, woven};
use crate::looks::amg;
use crate::model::{look, report};

// So many steps of search for circuits are enough to enumerate those of most graphs here.
const MANY: usize = 200_000;

// What stands in a circuit buffer before the call: no place has this number.
const BLANK: u16 = 500;

// What the ATAMM papers print of their graphs.
const PRINTED: [(&str, &[&str]); 4] = [
    ("S", &["TBO 1247/1", "TBIO 2371", "TCE 2872"]),
    ("S2", &["TBO 1671/1", "TBIO 2795"]),
    ("surveillance, three control edges", &["TBIO 2872", "TCE 2872"]),
    ("state equation, decomposed", &["TBO 1000/1", "TBIO 1250", "TCE 5550"]),
];

// The model says what the papers print.
pub fn as_printed() {
    for (name, lines) in PRINTED {
        let (times, edges) = named(name);
        let text = report(&plain(&times, &edges), MANY);
        for line in lines {
            assert!(text.lines().any(|l| l == *line), "{name}: {line} is printed");
        }
    }
}

fn files() -> Vec<Vec<u8>> {
    let texts = worked().into_iter().chain(further());
    let mut all: Vec<Vec<u8>> = texts.map(|(_, (times, edges))| plain(&times, &edges)).collect();
    // long rings: one mark, one in three, all but one, all
    let marks: [fn(usize) -> bool; 4] = [|k| k == 40, |k| k % 3 == 1 || k == 40, |k| k != 7, |_| true];
    for marked in marks {
        all.extend([mixed(40), vec![1_000_000; 40]].map(|times| plain(&times, &ring(40, marked))));
    }
    // many equal circuits
    for (deep, wide) in [(2, 2), (3, 3), (5, 4), (10, 3)] {
        let (n, edges) = layers(deep, wide);
        all.extend([vec![1; n], mixed(n)].map(|times| plain(&times, &edges)));
    }
    // 40 operations and 128 edges, with the longest times
    for times in [vec![1_000_000; 40], mixed(40)] {
        all.extend([chain(40, 128), woven()].map(|edges| plain(&times, &edges)));
    }
    // bytes that are no graph
    all.extend([0, 16, 2049].map(|long| vec![0; long]));
    all
}

// The lengths of the circuit buffer that a file is asked with.
fn rooms(f: &[u8]) -> Vec<usize> {
    match look(f) {
        Err(_) => vec![5],
        Ok(g) if f.len() > 300 => vec![g.transitions()],
        Ok(g) => vec![g.transitions() - 1, g.transitions(), g.transitions() + 3],
    }
}

pub fn write(book: &mut Book) {
    for f in files() {
        if let Ok(g) = look(&f) {
            let found = g.tbo(CAP);
            assert!(found == g.tbo(MANY) && found == g.tbo(0), "the model's two methods agree");
        }
        for entries in rooms(&f) {
            book.make(b'B', &f, &vec![BLANK; entries], &[]);
        }
    }
}

// Reports, few because each prints 4,096 bytes: a short, two middle and the longest one, and two that are refused.
pub fn reports(book: &mut Book) {
    let f = amg(&largest(), false);
    let mut wrong = f.clone();
    wrong[12 * 40 + 4 * 127 + 2] = 2;
    for f in [&sample("P1"), &sample("S"), &sample("S2"), &f, &wrong, &Vec::new()] {
        book.make(b'P', f, &[], &[]);
    }
}
