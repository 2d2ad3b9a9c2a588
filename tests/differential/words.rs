// The line that tests/c/calls.c must print for a call, from what the model replies: the word's number, place and count, and all that C lent to be written.
use crate::calls::{FILL, Reply};
use crate::model::{EDGES, OPERATIONS};

const COUNT: u64 = 0xff_ffff; // the largest count that a word can tell

// Numbers, where one that stands k times in a row is told as `number*k`.
fn numbers(xs: &[u64]) -> String {
    let one = |same: &[u64]| if same.len() == 1 { format!(" {}", same[0]) } else { format!(" {}*{}", same[0], same.len()) };
    xs.chunk_by(|a, b| a == b).map(one).collect()
}

// Look's five arrays: zeros behind what is used; as they were where it is refused.
fn arrays(r: &Reply) -> Vec<u64> {
    let Some(g) = &r.graph else {
        let word = u32::from_le_bytes([FILL; 4]) as u64;
        return [vec![word; 2 + OPERATIONS], vec![FILL as u64; 3 * EDGES]].concat();
    };
    let mut all = vec![g.n() as u64, g.edges.len() as u64];
    all.extend((0..OPERATIONS).map(|i| g.times.get(i).copied().unwrap_or(0)));
    let columns: [fn(&(usize, usize, u8)) -> u64; 3] = [|e| e.0 as u64, |e| e.1 as u64, |e| e.2 as u64];
    for column in columns {
        all.extend((0..EDGES).map(|k| g.edges.get(k).map_or(0, column)));
    }
    all
}

// The five values of bounds, then its circuit buffer.
fn bounded(r: &Reply) -> Vec<u64> {
    let values = if r.refused.is_some() { &[u64::from_le_bytes([FILL; 8]); 5] } else { &r.values[..5] };
    [values, &r.memory].concat()
}

pub fn word(r: &Reply) -> String {
    let (number, place) = r.refused.unwrap_or((0, 0));
    let count = r.values.last().copied().unwrap_or(0).min(COUNT);
    let memory = match r.name {
        "look" => arrays(r),
        "bounds" => bounded(r),
        _ => r.memory.clone(),
    };
    format!("{} {number} {place} {count} memory{}", r.name, numbers(&memory))
}
