//! Makes scripts: `oracle gen-bursts [--seed S] [--count N] >SCRIPTS`; kinds.rs says how many of each kind. A script is the number of its
//! bursts in 16 bits, low byte first, then each burst, its length in 16 bits and its bytes.
//!
//! A kind of script is a way to make bursts of a frame. `case` has, in every way, the cases of oracle/cases.txt, one for each answer; the
//! ways below it have frames of every kind in frames.rs.

use crate::cases::cases;
use crate::frames;
use crate::kinds::{self, put_run, Dice, Kind, Out, ENDLESS};
use crate::listing::{quiet, reading};
use std::collections::HashSet;
use std::io::{self, Write};

pub type Script = Vec<Vec<u8>>;

const WAYS: usize = 11;

fn kinds() -> [Kind<Script>; 2 + WAYS] {
    [
        Kind { name: "no-bytes", size: 5, make: no_bytes },
        Kind { name: "case", size: (told_apart().len() * WAYS) as u64, make: case },
        Kind { name: "whole", size: ENDLESS, make: whole },
        Kind { name: "byte-by-byte", size: ENDLESS, make: byte_by_byte },
        Kind { name: "one-size", size: ENDLESS, make: one_size },
        Kind { name: "random", size: ENDLESS, make: random },
        Kind { name: "empty", size: ENDLESS, make: empty },
        Kind { name: "before-last", size: ENDLESS, make: before_last },
        Kind { name: "after-last", size: ENDLESS, make: after_last },
        Kind { name: "after-next", size: ENDLESS, make: after_next },
        Kind { name: "other-tail", size: ENDLESS, make: other_tail },
        Kind { name: "long", size: ENDLESS, make: long },
        Kind { name: "out-of-data", size: ENDLESS, make: out_of_data },
    ]
}

pub fn generate(args: &[String]) -> io::Result<()> {
    quiet();
    kinds::generate(args, &kinds(), put_script)
}

fn put_script(out: &mut Out, script: Script) -> io::Result<()> {
    out.write_all(&(script.len() as u16).to_le_bytes())?;
    script.iter().try_for_each(|burst| put_run(out, burst))
}

// ---- the frames

struct Frame {
    bytes: Vec<u8>,
    /// How many of them edid-rs takes.
    taken: usize,
    /// Whether it is out of data then.
    short: bool,
}

thread_local! {
    static CASES: Vec<Vec<u8>> = told_apart();
    static KINDS: [Kind<Vec<u8>>; 20] = frames::kinds();
}

/// Of the cases the first for each answer.
fn told_apart() -> Vec<Vec<u8>> {
    let mut answers = HashSet::new();
    cases().filter(|(_, answer)| answers.insert(answer.split("; ").next())).map(|(block, _)| block).collect()
}

fn any(dice: &mut Dice) -> Vec<u8> {
    KINDS.with(|kinds| kinds[dice.below(20) as usize].any(dice))
}

/// The case of that number, past the last one a frame of any kind.
fn frame(i: u64, dice: &mut Dice) -> Frame {
    let case = CASES.with(|cases| cases.get(i as usize).cloned());
    let (answer, taken, bytes) = reading(case.unwrap_or_else(|| any(dice)));
    Frame { bytes, taken, short: matches!(answer, Err(1)) }
}

// ---- parts of scripts

/// Bursts of one size, the last one shorter where the bytes end.
fn sized(bytes: &[u8], size: usize) -> Script {
    bytes.chunks(size).map(<[u8]>::to_vec).collect()
}

/// Bursts of random sizes, none empty.
fn cut(mut bytes: &[u8], dice: &mut Dice) -> Script {
    let most = 2 << dice.below(7);
    let mut script = Vec::new();
    while !bytes.is_empty() {
        let (burst, rest) = bytes.split_at(bytes.len().min(1 + dice.below(most) as usize));
        script.push(burst.to_vec());
        bytes = rest;
    }
    script
}

/// All in one burst, or cut.
fn part(bytes: &[u8], dice: &mut Dice) -> Script {
    if dice.one_in(2) {
        vec![bytes.to_vec()]
    } else {
        cut(bytes, dice)
    }
}

fn empties(dice: &mut Dice) -> Script {
    vec![vec![]; 1 + dice.below(3) as usize]
}

/// Two parts, the second from that place on, and now and then empty bursts between them.
fn two_parts(bytes: &[u8], at: usize, dice: &mut Dice) -> Script {
    let (front, back) = bytes.split_at(at.min(bytes.len()));
    let mut script = part(front, dice);
    if dice.one_in(4) {
        script.extend(empties(dice));
    }
    script.extend(part(back, dice));
    script
}

// ---- the kinds

/// No burst, up to three empty ones, and three hundred.
fn no_bytes(i: u64, _: &mut Dice) -> Script {
    vec![vec![]; [0, 1, 2, 3, 300][i as usize]]
}

/// Every way for each of the cases.
fn case(i: u64, dice: &mut Dice) -> Script {
    let (number, way) = (i / WAYS as u64, i as usize % WAYS);
    (kinds()[2 + way].make)(number, dice)
}

/// All at once.
fn whole(i: u64, dice: &mut Dice) -> Script {
    vec![frame(i, dice).bytes]
}

/// One byte at a time.
fn byte_by_byte(i: u64, dice: &mut Dice) -> Script {
    sized(&frame(i, dice).bytes, 1)
}

/// Bursts of one size, 2 to 20.
fn one_size(i: u64, dice: &mut Dice) -> Script {
    sized(&frame(i, dice).bytes, 2 + dice.below(19) as usize)
}

/// Cut at random.
fn random(i: u64, dice: &mut Dice) -> Script {
    cut(&frame(i, dice).bytes, dice)
}

/// Cut at random, with empty bursts before, between and after.
fn empty(i: u64, dice: &mut Dice) -> Script {
    let bursts = cut(&frame(i, dice).bytes, dice);
    let mut script = empties(dice);
    for burst in bursts {
        script.push(burst);
        if dice.one_in(3) {
            script.extend(empties(dice));
        }
    }
    script.extend(empties(dice));
    script
}

/// Cut before the last byte that is taken.
fn before_last(i: u64, dice: &mut Dice) -> Script {
    let f = frame(i, dice);
    two_parts(&f.bytes, f.taken.saturating_sub(1), dice)
}

/// Cut after it.
fn after_last(i: u64, dice: &mut Dice) -> Script {
    let f = frame(i, dice);
    two_parts(&f.bytes, f.taken, dice)
}

/// Cut after the byte that follows it; a frame that is not short gets two more bytes, so that one does.
fn after_next(i: u64, dice: &mut Dice) -> Script {
    let mut f = frame(i, dice);
    if !f.short {
        f.bytes.extend(dice.bytes(2));
    }
    two_parts(&f.bytes, f.taken + 1, dice)
}

/// After the last byte that is taken other bytes than the frame's, or another frame.
fn other_tail(i: u64, dice: &mut Dice) -> Script {
    let f = frame(i, dice);
    let mut bytes = f.bytes[..f.taken].to_vec();
    bytes.extend(if dice.one_in(2) {
        any(dice)
    } else {
        let n = dice.below(300) as usize;
        dice.bytes(n)
    });
    cut(&bytes, dice)
}

/// One or two long bursts, the first with the last bytes that are taken or after them: several hundred random bytes, or several
/// thousand times one byte. Of the cases the first has the longest burst there is, the second one longer than 4,096.
fn long(i: u64, dice: &mut Dice) -> Script {
    let f = frame(i, dice);
    let (front, last) = f.bytes[..f.taken].split_at(dice.below(1 + f.taken as u64) as usize);
    let n = match i {
        0 => 65_535 - last.len(),
        1 => 4_097,
        _ if dice.one_in(2000) => 60_000 + dice.below(5_000) as usize,
        _ if dice.one_in(40) => 1_000 + dice.below(9_000) as usize,
        _ => several_hundred(dice),
    };
    let more = if n < 1_000 { dice.bytes(n) } else { vec![dice.byte(); n] };
    let mut script = part(front, dice);
    script.push([last, &more].concat());
    if dice.one_in(2) {
        let n = several_hundred(dice);
        script.push(dice.bytes(n));
    }
    script
}

fn several_hundred(dice: &mut Dice) -> usize {
    143 + dice.below(600) as usize
}

/// Fewer bytes than are taken, so out of data to the end; after half of them empty bursts.
fn out_of_data(i: u64, dice: &mut Dice) -> Script {
    let f = frame(i, dice);
    let n = dice.below(f.taken.max(1) as u64) as usize;
    let mut script = part(&f.bytes[..n], dice);
    if dice.one_in(2) {
        script.extend(empties(dice));
    }
    script
}

#[cfg(test)]
mod tests {
    use super::*;
    use crate::checked::checked;
    use crate::listing::list_bursts;

    /// Frames of each kind, and each of the cases, in one way: the script, and what edid-rs says of its bytes.
    fn each(make: fn(u64, &mut Dice) -> Script, mut test: impl FnMut(&Script, Option<u8>, usize)) {
        let mut dice = Dice(1);
        for i in 0..1000 {
            let script = make(i, &mut dice);
            let (answer, taken, _) = reading(script.concat());
            test(&script, answer.err(), taken);
        }
    }

    /// Whether as many bytes came after some burst.
    fn is_cut(script: &Script, at: usize) -> bool {
        (0..=script.len()).any(|k| script[..k].concat().len() == at)
    }

    #[test]
    fn each_way_does_what_it_says() {
        each(byte_by_byte, |script, _, _| assert!(script.iter().all(|burst| burst.len() == 1)));
        each(before_last, |script, _, taken| assert!(is_cut(script, taken.saturating_sub(1))));
        each(after_last, |script, _, taken| assert!(is_cut(script, taken)));
        each(after_next, |script, refusal, taken| assert!(refusal == Some(1) || is_cut(script, taken + 1)));
        each(empty, |script, _, _| assert!(script[0].is_empty() && script[script.len() - 1].is_empty()));
        each(long, |script, _, _| assert!(script.iter().any(|burst| burst.len() > 142)));
        each(out_of_data, |script, refusal, taken| assert!(refusal == Some(1) && taken == script.concat().len()));
    }

    /// Byte by byte, the answer of a case is told from its last taken byte on.
    #[test]
    fn the_last_taken_byte_brings_the_answer() {
        let checked = checked();
        for (block, answer) in cases().filter(|(_, answer)| checked || !answer.starts_with("refuse 6")) {
            let answer = answer.split("; ").next().unwrap();
            let taken = answer.rsplit(' ').next().unwrap().parse::<usize>().unwrap();
            let mut text = Vec::new();
            list_bursts(&mut text, sized(&block, 1));
            for (k, line) in String::from_utf8(text).unwrap().lines().take(block.len()).enumerate() {
                let waits = answer.starts_with("refuse 1 ") || k + 1 < taken;
                assert_eq!(line, if waits { "waiting" } else { answer }, "byte {} of {:02x?}", k, block);
            }
        }
    }
}
