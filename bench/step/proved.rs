// The proved `step` in the loop of twin.rs, called as C calls it.
#[allow(dead_code)]
#[path = "../calls/calls.rs"]
mod calls;
#[allow(dead_code)]
mod twin;
use calls::{amg_step, number, place};

fn main() {
    twin::timed(|file, marking, t| {
        let word = unsafe { amg_step(file.as_ptr(), file.len(), marking.as_mut_ptr(), marking.len(), t as u16) };
        1000 * number(word) as u64 + place(word) as u64 + marking[t] as u64
    });
}
