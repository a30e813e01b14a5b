//! Answers frames by edid-rs, unchanged. A frame is its length in 16 bits, low byte first, then as many bytes, at most 4,096.
//!     oracle <FRAMES           for each frame the crate listing, then a line `--`
//!     oracle numbers <FRAMES   for each frame a line with the three answers that C gets (see listing.rs)
//!     oracle gen >FRAMES       makes frames (see frames.rs)
//! And scripts of bursts. A script is the number of its bursts in 16 bits, then each burst, written as a frame is but of any length.
//!     oracle bursts <SCRIPTS          for each script a line for each burst and the crate listing (see listing.rs), then a line `--`
//!     oracle burst-numbers <SCRIPTS   the numbers that C gets in their place
//!     oracle gen-bursts >SCRIPTS      makes scripts (see bursts.rs)

mod bursts;
mod cases;
#[cfg(test)]
mod checked;
mod frames;
mod kinds;
mod listing;

use std::io::{self, BufRead, BufWriter, Read, StdinLock, Write};
use std::process::exit;

const LONGEST: usize = 4096;

fn main() {
    let args: Vec<String> = std::env::args().skip(1).collect();
    let done = match args.first().map(String::as_str) {
        None => answer("frame", frame, listing::list),
        Some("numbers") => answer("frame", frame, listing::numbers),
        Some("bursts") => answer("script", script, listing::list_bursts),
        Some("burst-numbers") => answer("script", script, listing::burst_numbers),
        Some("gen") => frames::generate(&args[1..]),
        Some("gen-bursts") => bursts::generate(&args[1..]),
        Some(_) => stop(
            "usage: oracle [numbers] <FRAMES, oracle bursts|burst-numbers <SCRIPTS, oracle gen|gen-bursts [--seed S] [--count N] [--all]",
        ),
    };
    if let Err(e) = done {
        stop(&e.to_string());
    }
}

/// Answers one after the other, to the end of the input.
fn answer<T>(what: &str, next: fn(&mut StdinLock, &str) -> io::Result<T>, write: fn(&mut Vec<u8>, T)) -> io::Result<()> {
    listing::quiet();
    let mut input = io::stdin().lock();
    let mut out = BufWriter::with_capacity(1 << 16, io::stdout());
    let mut text = Vec::new();
    let mut number = 0;
    while !input.fill_buf()?.is_empty() {
        text.clear();
        write(&mut text, next(&mut input, &format!("{} {}", what, number))?);
        out.write_all(&text)?;
        number += 1;
    }
    out.flush()
}

fn frame(input: &mut StdinLock, name: &str) -> io::Result<Vec<u8>> {
    let length = word(input, name)?;
    if length > LONGEST {
        stop(&format!("{} is longer than {}", name, LONGEST));
    }
    run(input, length, name)
}

fn script(input: &mut StdinLock, name: &str) -> io::Result<bursts::Script> {
    let mut script = Vec::new();
    for _ in 0..word(input, name)? {
        let length = word(input, name)?;
        script.push(run(input, length, name)?);
    }
    Ok(script)
}

/// 16 bits, low byte first.
fn word(input: &mut StdinLock, name: &str) -> io::Result<usize> {
    let bytes = run(input, 2, name)?;
    Ok(u16::from_le_bytes([bytes[0], bytes[1]]) as usize)
}

fn run(input: &mut StdinLock, n: usize, name: &str) -> io::Result<Vec<u8>> {
    let mut bytes = Vec::with_capacity(n);
    input.take(n as u64).read_to_end(&mut bytes)?;
    if bytes.len() < n {
        stop(&format!("{} is cut short", name));
    }
    Ok(bytes)
}

/// Ends with a line on standard error.
pub fn stop(why: &str) -> ! {
    eprintln!("oracle: {}", why);
    exit(1)
}
