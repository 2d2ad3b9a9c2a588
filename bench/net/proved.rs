// The proved `distances` and `first_dead` in the loop of twin.rs.
#[allow(dead_code)]
mod twin;
use twin::{EDGES, TRANSITIONS, timed};

#[link(name = "bench_inner", kind = "static")]
extern "C" {
    fn bench_distances(n: usize, e: usize, from: &[u8; EDGES], to: &[u8; EDGES], marking: *const u8, places: usize, t: usize, d: &mut [u16; TRANSITIONS]);
    fn bench_first_dead(n: usize, e: usize, from: &[u8; EDGES], to: &[u8; EDGES], marking: *const u8, places: usize) -> usize;
}

fn main() {
    timed(
        |n, e, from, to, marking, t, d| unsafe { bench_distances(n, e, from, to, marking.as_ptr(), marking.len(), t, d) },
        |n, e, from, to, marking| unsafe { bench_first_dead(n, e, from, to, marking.as_ptr(), marking.len()) },
    );
}
