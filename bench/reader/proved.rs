// The proved `look` in the loop of twin.rs, called as C calls it.
#[allow(dead_code)]
#[path = "../calls/calls.rs"]
mod calls;
#[allow(dead_code)]
mod twin;
use calls::{amg_look, number, place};

fn main() {
    let (mut counts, mut times, mut from, mut to, mut mark) = ([0; 2], [0; 40], [0; 128], [0; 128], [0; 128]);
    twin::timed(|file, i| {
        let word = unsafe { amg_look(file.as_ptr(), file.len(), &mut counts, &mut times, &mut from, &mut to, &mut mark) };
        if number(word) != 0 {
            return 1000 * number(word) as u64 + place(word) as u64;
        }
        times[i] as u64 + from[i] as u64 + to[i] as u64 + mark[i] as u64
    });
}
