// The calls of include/amg.h, and a case of one: a record of docs/CALLS.md that can be made again and again, and timed.
use std::time::Duration;

extern "C" {
    fn clock_gettime(clock: i32, now: *mut [i64; 2]) -> i32;
}

// The processor's time of this thread so far (Linux's clock 3): what else runs on the machine does not count.
pub fn spent() -> Duration {
    let mut now = [0; 2];
    unsafe { clock_gettime(3, &mut now) };
    Duration::new(now[0] as u64, now[1] as u32)
}

#[link(name = "amg", kind = "static")]
extern "C" {
    pub fn amg_look(file: *const u8, length: usize, counts: *mut [u32; 2], times: *mut [u32; 40], from: *mut [u8; 128], to: *mut [u8; 128], mark: *mut [u8; 128]) -> u64;
    pub fn amg_start(file: *const u8, length: usize, marking: *mut u8, places: usize) -> u64;
    pub fn amg_step(file: *const u8, length: usize, marking: *mut u8, places: usize, transition: u16) -> u64;
    pub fn amg_run(file: *const u8, length: usize, marking: *mut u8, places: usize, list: *const u16, entries: usize) -> u64;
    pub fn amg_wait(file: *const u8, length: usize, marking: *const u8, places: usize, transition: u16) -> u64;
    pub fn amg_bounds(file: *const u8, length: usize, circuit: *mut u16, entries: usize, values: *mut [u64; 5]) -> u64;
    pub fn amg_report(file: *const u8, length: usize, buffer: *mut u8, room: usize) -> u64;
}

#[derive(Clone, Default)]
pub struct Case {
    pub letter: u8,
    pub file: Vec<u8>,
    pub list: Vec<u16>,
    pub marking: Vec<u8>,
}

// What a call says: the refusal's number and place.
pub fn number(word: u64) -> u8 {
    word as u8
}

pub fn place(word: u64) -> u16 {
    (word >> 8) as u16
}

impl Case {
    // The record, as docs/CALLS.md has it.
    pub fn record(&self) -> Vec<u8> {
        let mut r = vec![self.letter];
        r.extend((self.file.len() as u16).to_le_bytes());
        r.extend(&self.file);
        r.extend((self.list.len() as u16).to_le_bytes());
        r.extend(self.list.iter().flat_map(|t| t.to_le_bytes()));
        r.extend((self.marking.len() as u16).to_le_bytes());
        r.extend(&self.marking);
        r
    }

    pub fn of(record: &[u8]) -> Option<Case> {
        let (letter, mut rest) = record.split_first()?;
        let mut part = |unit: usize| {
            let long = unit * u16::from_le_bytes([*rest.first()?, *rest.get(1)?]) as usize;
            let found = rest.get(2..2 + long)?.to_vec();
            rest = &rest[2 + long..];
            Some(found)
        };
        let (file, list, marking) = (part(1)?, part(2)?, part(1)?);
        Some(Case { letter: *letter, file, list: list.chunks(2).map(|c| u16::from_le_bytes([c[0], c[1]])).collect(), marking })
    }

    // Makes the call once. What it writes goes to a copy.
    pub fn make(&self, copy: &mut Copy) -> u64 {
        let (f, length) = (self.file.as_ptr(), self.file.len());
        let first = self.list.first().copied().unwrap_or(65535);
        let (m, places) = (copy.marking.as_mut_ptr(), self.marking.len());
        copy.marking[..places].copy_from_slice(&self.marking);
        unsafe {
            match self.letter {
                b'L' => amg_look(f, length, &mut copy.counts, &mut copy.times, &mut copy.rows[0], &mut copy.rows[1], &mut copy.rows[2]),
                b'S' => amg_start(f, length, m, places),
                b'T' => amg_step(f, length, m, places, first),
                b'R' => amg_run(f, length, m, places, self.list.as_ptr(), self.list.len()),
                b'W' => amg_wait(f, length, m, places, first),
                b'B' => amg_bounds(f, length, copy.circuit.as_mut_ptr(), self.list.len().min(copy.circuit.len()), &mut copy.values),
                _ => amg_report(f, length, copy.text.as_mut_ptr(), copy.text.len()),
            }
        }
    }

    // Nanoseconds a call: the best of short batches, of the processor's time.
    pub fn time(&self, copy: &mut Copy, total: Duration) -> f64 {
        let began = spent();
        self.make(copy);
        let once = (spent() - began).as_nanos().max(50);
        let many = (100_000 / once).clamp(1, 10_000);
        let mut best = f64::MAX;
        loop {
            let before = spent();
            for _ in 0..many {
                std::hint::black_box(self.make(std::hint::black_box(copy)));
            }
            let after = spent();
            best = best.min((after - before).as_nanos() as f64 / many as f64);
            if after - began >= total {
                return best;
            }
        }
    }
}

// Memory for what a call writes.
pub struct Copy {
    pub counts: [u32; 2],
    pub times: [u32; 40],
    pub rows: [[u8; 128]; 3],
    pub marking: [u8; 4096],
    pub circuit: [u16; 122],
    pub values: [u64; 5],
    pub text: [u8; 4096],
}

impl Copy {
    pub fn new() -> Copy {
        Copy { counts: [0; 2], times: [0; 40], rows: [[0; 128]; 3], marking: [0; 4096], circuit: [0; 122], values: [0; 5], text: [0; 4096] }
    }
}
