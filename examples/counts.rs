// Reads N and E of the graph file that is named as argument, and the marking at its start.
use std::process::ExitCode;

// As include/amg.h declares them: a slice goes as its pointer and its length.
#[link(name = "amg", kind = "static")]
extern "C" {
    fn amg_look(file: *const u8, length: usize, counts: *mut [u32; 2], times: *mut [u32; 40], from: *mut [u8; 128], to: *mut [u8; 128], mark: *mut [u8; 128]) -> u64;
    fn amg_start(file: *const u8, length: usize, marking: *mut u8, places: usize) -> u64;
}

struct Graph {
    counts: [u32; 2],
    times: [u32; 40],
    from: [u8; 128],
    to: [u8; 128],
    mark: [u8; 128],
}

// A refusal's number and place.
fn done(word: u64) -> Result<(), (u8, u16)> {
    if word as u8 == 0 { Ok(()) } else { Err((word as u8, (word >> 8) as u16)) }
}

// The calls take any bytes. What they ask of a pointer, Rust's references keep.
fn look(file: &[u8]) -> Result<Graph, (u8, u16)> {
    let mut g = Graph { counts: [0; 2], times: [0; 40], from: [0; 128], to: [0; 128], mark: [0; 128] };
    done(unsafe { amg_look(file.as_ptr(), file.len(), &mut g.counts, &mut g.times, &mut g.from, &mut g.to, &mut g.mark) })?;
    Ok(g)
}

fn start(file: &[u8], marking: &mut [u8]) -> Result<(), (u8, u16)> {
    done(unsafe { amg_start(file.as_ptr(), file.len(), marking.as_mut_ptr(), marking.len()) })
}

fn show(file: &[u8]) -> Result<(), (u8, u16)> {
    let g = look(file)?;
    let (n, e) = (g.counts[0] as usize, g.counts[1] as usize);
    println!("{n} operations, times {:?}", &g.times[..n]);
    for k in 0..e {
        println!("edge {} to {}{}", g.from[k], g.to[k], if g.mark[k] == 1 { ", marked" } else { "" });
    }
    let mut marking = vec![0; 3 * n + 2 * e];
    start(file, &mut marking)?;
    println!("start {marking:?}");
    Ok(())
}

fn main() -> ExitCode {
    let Some(name) = std::env::args().nth(1) else {
        eprintln!("usage: counts FILE");
        return ExitCode::from(2);
    };
    let file = match std::fs::read(&name) {
        Ok(file) => file,
        Err(e) => {
            eprintln!("{name}: {e}");
            return ExitCode::from(2);
        }
    };
    match show(&file) {
        Ok(()) => ExitCode::SUCCESS,
        Err((number, place)) => {
            println!("refused {number} at {place}");
            ExitCode::FAILURE
        }
    }
}
