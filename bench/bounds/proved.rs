// The proved TBO, its lowest terms and its circuit in the loop of twin.rs. The marking at the start and the times of the transitions are made for each
// graph, as `bounds` makes them.
#[allow(dead_code)]
mod twin;
use twin::{EDGES, OPERATIONS, PLACES, TRANSITIONS, timed};

#[link(name = "bench_inner", kind = "static")]
extern "C" {
    fn bench_start_marking(n: usize, e: usize, from: &[u8; EDGES], to: &[u8; EDGES], mark: &[u8; EDGES], out: *mut u8, places: usize);
    fn bench_transition_times(n: usize, e: usize, times: &[u32; OPERATIONS], from: &[u8; EDGES], to: &[u8; EDGES], mark: &[u8; EDGES], out: &mut [u32; TRANSITIONS]);
    fn bench_largest(n: usize, e: usize, from: &[u8; EDGES], to: &[u8; EDGES], marking: &[u8; PLACES], times: &[u32; TRANSITIONS], d: &mut [u64; TRANSITIONS], ratio: &mut [u64; 2]);
    fn bench_reduce(a: u64, b: u64, ratio: &mut [u64; 2]);
    fn bench_choose(n: usize, e: usize, from: &[u8; EDGES], to: &[u8; EDGES], marking: &[u8; PLACES], times: &[u32; TRANSITIONS], a: u64, b: u64, d: &[u64; TRANSITIONS], ring: *mut u16, entries: usize) -> usize;
}

fn main() {
    let mut d = [0; TRANSITIONS];
    let mut ring = [0; TRANSITIONS];
    timed(|g, both| unsafe {
        let mut marking = [0; PLACES];
        bench_start_marking(g.n, g.e, &g.from, &g.to, &g.mark, marking.as_mut_ptr(), PLACES);
        let mut times = [0; TRANSITIONS];
        bench_transition_times(g.n, g.e, &g.times, &g.from, &g.to, &g.mark, &mut times);
        let mut q = [0; 2];
        bench_largest(g.n, g.e, &g.from, &g.to, &marking, &times, &mut d, &mut q);
        let mut l = [0; 2];
        bench_reduce(q[0], q[1], &mut l);
        let mut sum = l[0] + 1000 * l[1];
        if both {
            let k = bench_choose(g.n, g.e, &g.from, &g.to, &marking, &times, q[0], q[1], &d, ring.as_mut_ptr(), TRANSITIONS);
            sum += 7 * k as u64 + 11 * ring[0] as u64 + 13 * ring[k - 1] as u64;
        }
        sum
    });
}
