// The proved `wait` in the loop of bench/step's twin.rs, called as C calls it.
#[allow(dead_code)]
#[path = "../calls/calls.rs"]
mod calls;
#[allow(dead_code)]
#[path = "../step/twin.rs"]
mod twin;
use calls::{amg_wait, number};

fn main() {
    twin::timed(|file, marking, t| {
        let word = unsafe { amg_wait(file.as_ptr(), file.len(), marking.as_ptr(), marking.len(), t as u16) };
        if number(word) == 0 { word >> 40 } else { 1000 * number(word) as u64 }
    });
}
