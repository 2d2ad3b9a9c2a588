// The calls as the model makes them: each one's record, as `calls_main` and `plays_main` read it, and the line that it must print.
use crate::model::{self, Graph, Refusal, look};

pub const CAP: usize = 20_000;

// What stands in lent memory before a call, where the record does not say.
pub const FILL: u8 = 170;

// One call: its letter, file, list and marking, and the line that the model expects.
pub struct Call {
    pub record: Vec<u8>,
    pub expected: String,
    pub refusal: u8,
    pub reply: Reply,
}

fn numbers<T: std::fmt::Display>(xs: &[T]) -> String {
    xs.iter().map(|x| format!(" {x}")).collect()
}

fn record(letter: u8, f: &[u8], list: &[u16], m: &[u8]) -> Vec<u8> {
    let mut r = vec![letter];
    r.extend((f.len() as u16).to_le_bytes());
    r.extend(f);
    r.extend((list.len() as u16).to_le_bytes());
    r.extend(list.iter().flat_map(|t| t.to_le_bytes()));
    r.extend((m.len() as u16).to_le_bytes());
    r.extend(m);
    r
}

// Refusals 10 and 11 of a marking that is read.
fn accepts(g: &Graph, m: &[u8]) -> Result<(), Refusal> {
    if m.len() != g.places() || m.iter().any(|x| *x > 1) {
        return Err((10, 0));
    }
    if g.reached(m, 300) { Ok(()) } else { Err((11, 0)) }
}

fn fires(g: &Graph, m: &mut [u8], t: u16) -> Result<(), Refusal> {
    if t as usize >= g.transitions() {
        return Err((12, 0));
    }
    if let Some(p) = g.lacks(m, t as usize) {
        return Err((13, p as u16));
    }
    g.fire(m, t as usize);
    Ok(())
}

pub fn start(f: &[u8], m: &mut [u8]) -> Result<(), Refusal> {
    let g = look(f)?;
    if m.len() != g.places() {
        return Err((10, 0));
    }
    m.copy_from_slice(&g.start());
    Ok(())
}

pub fn step(f: &[u8], m: &mut [u8], t: u16) -> Result<(), Refusal> {
    let g = look(f)?;
    accepts(&g, m)?;
    fires(&g, m, t)
}

pub fn run(f: &[u8], m: &mut [u8], list: &[u16]) -> (Result<(), Refusal>, usize) {
    let ready = look(f).and_then(|g| accepts(&g, m).map(|_| g));
    let g = match ready {
        Err(r) => return (Err(r), 0),
        Ok(g) => g,
    };
    for (k, t) in list.iter().enumerate() {
        if let Err(r) = fires(&g, m, *t) {
            return (Err(r), k);
        }
    }
    (Ok(()), list.len())
}

fn wait(f: &[u8], m: &[u8], t: u16) -> Result<u64, Refusal> {
    let g = look(f)?;
    accepts(&g, m)?;
    if t as usize >= g.transitions() {
        return Err((12, 0));
    }
    Ok(g.wait(m, t as usize))
}

fn bounds(f: &[u8], out: &mut [u16]) -> Result<[u64; 6], Refusal> {
    let g = look(f)?;
    if out.len() < g.transitions() {
        return Err((14, 0));
    }
    let (a, b, ring) = g.tbo(CAP);
    let (tbio, tt) = g.tbio_tt();
    for (k, p) in ring.iter().enumerate() {
        out[k] = *p as u16;
    }
    Ok([a, b, tbio, tt, g.times.iter().sum(), ring.len() as u64])
}

// What a call replies: the refusal, look's graph, the call's values, and all that was lent to be written (and a wait's marking) as it is afterwards.
pub struct Reply {
    pub name: &'static str,
    pub refused: Option<Refusal>,
    pub graph: Option<Graph>,
    pub values: Vec<u64>,
    pub memory: Vec<u64>,
}

fn wide<T: Copy + Into<u64>>(xs: &[T]) -> Vec<u64> {
    xs.iter().map(|x| (*x).into()).collect()
}

fn report(f: &[u8], room: usize) -> Reply {
    let refused = if room < 4096 { Some((14, 0)) } else { look(f).err() };
    let text = if room < 4096 { String::new() } else { model::report(f, CAP) };
    let mut buffer = vec![FILL; room];
    buffer[..text.len()].copy_from_slice(text.as_bytes());
    Reply { name: "report", refused, graph: None, values: vec![text.len() as u64], memory: wide(&buffer) }
}

// The call of one record. Z is a report into a buffer of length 0, which only the program in C can be asked for.
pub fn reply(letter: u8, f: &[u8], list: &[u16], m: &[u8]) -> Reply {
    let (mut after, mut entries) = (m.to_vec(), list.to_vec());
    let first = list.first().copied().unwrap_or(65535);
    let (name, refused, values) = match letter {
        b'L' => {
            let r = look(f);
            return Reply { name: "look", refused: r.clone().err(), graph: r.ok(), values: Vec::new(), memory: Vec::new() };
        }
        b'S' => ("start", start(f, &mut after).err(), Vec::new()),
        b'T' => ("step", step(f, &mut after, first).err(), Vec::new()),
        b'R' => {
            let (r, fired) = run(f, &mut after, list);
            ("run", r.err(), vec![fired as u64])
        }
        b'W' => {
            let r = wait(f, m, first);
            ("wait", r.err(), vec![r.unwrap_or(0)])
        }
        b'B' => {
            let r = bounds(f, &mut entries);
            ("bounds", r.err(), r.unwrap_or([0; 6]).to_vec())
        }
        b'Z' => return report(f, 0),
        _ => return report(f, if m.is_empty() || m.len() > 4095 { 4096 } else { m.len() }),
    };
    let memory = if letter == b'B' { wide(&entries) } else { wide(&after) };
    Reply { name, refused, graph: None, values, memory }
}

// The line of `calls_main`.
fn line(r: &Reply) -> String {
    let (number, place) = r.refused.unwrap_or((0, 0));
    let mut line = format!("{} {number} {place}", r.name);
    if let Some(g) = &r.graph {
        line += &format!(" {} {}", g.n(), g.edges.len());
        line += &numbers(&g.times);
        line += &g.edges.iter().map(|(a, b, k)| format!(" {a} {b} {k}")).collect::<String>();
    }
    line + &numbers(&r.values) + " memory" + &numbers(&r.memory)
}

pub fn call(letter: u8, f: &[u8], list: &[u16], m: &[u8]) -> Call {
    let r = reply(letter, f, list, m);
    Call { record: record(letter, f, list, m), expected: line(&r), refusal: r.refused.map_or(0, |r| r.0), reply: r }
}
