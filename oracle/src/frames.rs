//! Makes frames: `oracle gen [--seed S] [--count N] [--all] >FRAMES`; kinds.rs says how many of each kind.

use crate::cases::cases;
use crate::kinds::{self, put_run, Dice, Kind, ENDLESS};
use std::io;

pub fn kinds() -> [Kind<Vec<u8>>; 20] {
    [
        Kind { name: "case", size: cases().count() as u64, make: case },
        Kind { name: "length", size: 2 * 301, make: length },
        Kind { name: "tag", size: 4 * 256, make: tag },
        Kind { name: "pair", size: 26 * 5, make: pair },
        Kind { name: "flag", size: 18, make: flag },
        Kind { name: "point", size: 3 * 3 * 3 * 3, make: point },
        Kind { name: "long-text", size: 6 * 6 * 6, make: long_text },
        Kind { name: "combination", size: 12 * 12 * 12, make: combination },
        Kind { name: "short-or-long", size: 143 + 89, make: short_or_long },
        Kind { name: "porch", size: 4 * 3 * 3 * 6, make: porch },
        Kind { name: "width", size: 4 * 15 * 2, make: width },
        Kind { name: "guard", size: 3 * 99, make: guard },
        Kind { name: "value", size: 256, make: value },
        Kind { name: "byte", size: (8 + 73) * 20, make: byte },
        Kind { name: "float", size: 4096, make: float },
        Kind { name: "gtf", size: (1 << 16) / 3 + 1, make: gtf },
        Kind { name: "descriptors", size: VARIANTS * VARIANTS * VARIANTS, make: descriptors },
        Kind { name: "cut-byte", size: 6 * 142 * 20 * 143, make: cut_byte },
        Kind { name: "mixed", size: ENDLESS, make: mixed },
        Kind { name: "noise", size: ENDLESS, make: noise },
    ]
}

pub fn generate(args: &[String]) -> io::Result<()> {
    kinds::generate(args, &kinds(), |out, frame| put_run(out, &frame))
}

impl Dice {
    fn telling(&mut self) -> u8 {
        TELLING[self.below(20) as usize]
    }
}

const SPECIMEN: &[u8; 128] = include_bytes!("../../docs/specimen.bin");
const TELLING: [u8; 20] =
    [0x00, 0x01, 0x02, 0x0a, 0x0f, 0x10, 0x11, 0x20, 0x21, 0x40, 0x7f, 0x80, 0xc0, 0xf9, 0xfa, 0xfb, 0xfc, 0xfd, 0xfe, 0xff];

// ---- blocks of slots

/// The specimen's first 54 bytes, the slots, and one byte for the extension count.
fn block(first: Vec<u8>, later: [Vec<u8>; 3]) -> Vec<u8> {
    let mut b = SPECIMEN[..54].to_vec();
    b.extend(first);
    later.iter().for_each(|slot| b.extend(slot));
    b.push(b.len() as u8);
    b
}

fn specimen_slots() -> [Vec<u8>; 4] {
    let slot = |at: usize| SPECIMEN[at..at + 18].to_vec();
    [slot(54), slot(72), slot(90), slot(108)]
}

/// A block whose slot of that number, from 0, is the given one, the others as in the specimen.
fn block_with(number: u64, slot: Vec<u8>) -> Vec<u8> {
    let mut slots = specimen_slots();
    slots[number as usize] = slot;
    let [first, second, third, fourth] = slots;
    block(first, [second, third, fourth])
}

/// A detailed timing by its fields.
struct Timing {
    clock: u16,
    active: [u16; 2],
    blanking: [u16; 2],
    front: [u16; 2],
    sync: [u16; 2],
    size: [u16; 2],
    border: [u8; 2],
    flags: u8,
}

impl Timing {
    /// One that edid-rs accepts.
    fn good(dice: &mut Dice) -> Timing {
        let mut below = |n: u64| dice.below(n) as u16;
        let front = [below(1024), below(64)];
        let sync = [below(1024), below(64)];
        Timing {
            clock: 1 + below(65535),
            active: [below(16) << 8 | (1 + below(255)), below(4096)],
            blanking: [front[0] + sync[0] + below(2048), front[1] + sync[1] + below(3000)],
            front,
            sync,
            size: [below(4096), below(4096)],
            border: [below(256) as u8, below(256) as u8],
            flags: below(256) as u8,
        }
    }

    fn bytes(&self) -> Vec<u8> {
        let high = |a: u16, b: u16| (a >> 8 << 4 | b >> 8) as u8;
        let [front, sync] = [self.front, self.sync];
        vec![
            self.clock as u8,
            (self.clock >> 8) as u8,
            self.active[0] as u8,
            self.blanking[0] as u8,
            high(self.active[0], self.blanking[0]),
            self.active[1] as u8,
            self.blanking[1] as u8,
            high(self.active[1], self.blanking[1]),
            front[0] as u8,
            sync[0] as u8,
            ((front[1] & 15) << 4 | sync[1] & 15) as u8,
            (front[0] >> 8 << 6 | sync[0] >> 8 << 4 | front[1] >> 4 << 2 | sync[1] >> 4) as u8,
            self.size[0] as u8,
            self.size[1] as u8,
            high(self.size[0], self.size[1]),
            self.border[0],
            self.border[1],
            self.flags,
        ]
    }
}

/// A slot that is no timing: clock zero or active low zero, the tag, the skipped byte, what follows.
fn tagged(dice: &mut Dice, tag: u8, rest: Vec<u8>) -> Vec<u8> {
    let mut b = match dice.below(4) {
        0 => vec![dice.byte(), dice.byte(), 0],
        1 => vec![0, 0, dice.byte()],
        _ => vec![0, 0, 0],
    };
    b.extend(&[tag, dice.byte()]);
    b.extend(rest);
    b
}

/// Up to `line` any bytes but 0x0a, then 0x0a and spaces; at 13 no 0x0a.
fn text(dice: &mut Dice, line: u64) -> Vec<u8> {
    (0..13)
        .map(|i| match i {
            _ if i < line => dice.not(0x0a),
            _ if i == line => 0x0a,
            _ => 0x20,
        })
        .collect()
}

fn pairs(dice: &mut Dice, n: usize) -> Vec<u8> {
    (0..n).flat_map(|_| if dice.one_in(3) { vec![1, 1] } else { dice.bytes(2) }).collect()
}

fn ended(mut run: Vec<u8>, end: &[u8]) -> Vec<u8> {
    run.extend(end);
    run
}

/// Two white points, each index zero or not. After a first index of zero come 5 skipped bytes, after a second of zero too.
fn white(dice: &mut Dice, first: bool, second: bool) -> Vec<u8> {
    let mut run = dice.bytes(if first && !second { 15 } else { 10 });
    run[0] = if first { dice.not(0) } else { 0 };
    run[5] = if second { dice.not(0) } else { 0 };
    ended(run, b"\n  ")
}

fn limits(dice: &mut Dice, kind: u8) -> Vec<u8> {
    let mut run = dice.bytes(5);
    run.push(kind);
    match kind {
        0 => ended(run, b"\n      "),
        2 => ended(ended(run, &[0]), &dice.bytes(6)),
        _ => ended(run, &dice.bytes(7)),
    }
}

/// The slots told apart: timing, tag 10, fa, fb four ways, fd three ways, two raw runs, three texts with 0x0a at 13 places and at none.
const VARIANTS: u64 = 12 + 3 * 14;

fn variant(number: u64, dice: &mut Dice) -> Vec<u8> {
    let (tag, rest) = match number {
        0 => return Timing::good(dice).bytes(),
        1 => (0x10, vec![]),
        2 => (0xfa, ended(pairs(dice, 6), b"\n")),
        3 => (0xfb, white(dice, false, false)),
        4 => (0xfb, white(dice, false, true)),
        5 => (0xfb, white(dice, true, false)),
        6 => (0xfb, white(dice, true, true)),
        7 => (0xfd, limits(dice, 0)),
        8 => (0xfd, limits(dice, 2)),
        9 => (0xfd, {
            let kind = if dice.one_in(2) { 1 } else { 3 + dice.below(253) as u8 };
            limits(dice, kind)
        }),
        10 => (dice.below(16) as u8, dice.bytes(13)),
        11 => (0x11 + dice.below(0xe9) as u8, dice.bytes(13)),
        n => ([0xfc, 0xfe, 0xff][(n - 12) as usize / 14], text(dice, (n - 12) % 14)),
    };
    tagged(dice, tag, rest)
}

/// A slot of that tag that edid-rs accepts.
fn slot_of(tag: u8, dice: &mut Dice) -> Vec<u8> {
    let number = match tag {
        0x10 => 1,
        0xfa => 2,
        0xfb => 3 + dice.below(4),
        0xfd => 7 + dice.below(3),
        0xfc => 12 + dice.below(14),
        0xfe => 26 + dice.below(14),
        0xff => 40 + dice.below(14),
        _ => {
            let run = dice.bytes(13);
            return tagged(dice, tag, run);
        }
    };
    variant(number, dice)
}

// ---- the kinds

/// Every case of oracle/cases.txt.
fn case(i: u64, _: &mut Dice) -> Vec<u8> {
    cases().nth(i as usize).expect("as many cases as the kind's size says").0
}

/// Every length from 0 to 300: the specimen cut or padded, and random bytes.
fn length(i: u64, dice: &mut Dice) -> Vec<u8> {
    let n = i as usize % 301;
    let mut b = dice.bytes(n);
    if i < 301 {
        let shared = n.min(128);
        b[..shared].copy_from_slice(&SPECIMEN[..shared]);
    }
    b
}

/// Every tag in each of the four slots; in the first one it is refused.
fn tag(i: u64, dice: &mut Dice) -> Vec<u8> {
    block_with(i / 256, slot_of((i % 256) as u8, dice))
}

/// Twenty-six pairs, the most there can be: all listed, or one of them 01 01, which is not, or 00 00, 01 00 or 00 01, which are.
fn pair(i: u64, dice: &mut Dice) -> Vec<u8> {
    let mut pairs: Vec<[u8; 2]> = (0..26).map(|_| [dice.byte(), dice.not(1)]).collect();
    if let Some(odd) = [[1, 1], [0, 0], [1, 0], [0, 1]].get(i as usize / 26) {
        pairs[i as usize % 26] = *odd;
    }
    let mut six = |slot: usize| tagged(dice, 0xfa, ended(pairs[8 + 6 * slot..14 + 6 * slot].concat(), b"\n"));
    let mut b = block(SPECIMEN[54..72].to_vec(), [six(0), six(1), six(2)]);
    b[38..54].copy_from_slice(&pairs[..8].concat());
    b
}

/// Seventeen flags, the most there can be, and each sixteen of them.
fn flag(i: u64, dice: &mut Dice) -> Vec<u8> {
    let mut b = SPECIMEN.to_vec();
    b[35..38].copy_from_slice(&[0xff, 0xff, 0x80 | dice.byte()]);
    match i {
        16 => b[37] ^= 0x80,
        17 => (),
        _ => b[35 + i as usize / 8] ^= 1 << i % 8,
    }
    b
}

/// Three slots of points: one, two in 23 bytes or two in 18 in each, so up to six, the most there can be; gamma as it comes, 00 or ff.
fn point(i: u64, dice: &mut Dice) -> Vec<u8> {
    let mut one = |n: u64| {
        let mut slot = variant(4 + n % 3, dice);
        if let Some(gamma) = [0x00, 0xff].get(i as usize / 27) {
            slot[9] = *gamma;
            slot[14] = *gamma;
        }
        slot
    };
    block(SPECIMEN[54..72].to_vec(), [one(i), one(i / 3), one(i / 9)])
}

/// Three texts of each tag, the most descriptors there can be, each as long as a text gets: twelve bytes and 0x0a, or thirteen.
fn long_text(i: u64, dice: &mut Dice) -> Vec<u8> {
    let mut one = |n: u64| variant(12 + 14 * (n % 3) + 12 + n / 3 % 2, dice);
    block(SPECIMEN[54..72].to_vec(), [one(i), one(i / 6), one(i / 36)])
}

/// Every combination of slots over the three: timing, tag 10, fa, four fb, three fd, raw, text.
fn combination(i: u64, dice: &mut Dice) -> Vec<u8> {
    let mut one = |n: u64| match n {
        10 => variant(10 + dice.below(2), dice),
        11 => variant(12 + dice.below(3 * 14), dice),
        _ => variant(n, dice),
    };
    block(SPECIMEN[54..72].to_vec(), [one(i / 144), one(i / 12 % 12), one(i % 12)])
}

/// Three slots of 23 bytes, and three of 5, cut at every place.
fn short_or_long(i: u64, dice: &mut Dice) -> Vec<u8> {
    let (number, cut) = if i < 143 { (5, i) } else { (1, i - 143) };
    let slots = [variant(number, dice), variant(number, dice), variant(number, dice)];
    let mut b = block(SPECIMEN[54..72].to_vec(), slots);
    b.truncate(cut as usize);
    b
}

/// Front porch and sync together one more than the blanking, equal to it, and one less, on each axis and in each slot.
fn porch(i: u64, dice: &mut Dice) -> Vec<u8> {
    let mut t = Timing::good(dice);
    let ends = [([1023, 63], [1023, 63]), ([0, 0], [1, 1]), ([1, 1], [0, 0]), ([0, 0], [1023, 63])];
    if let Some((front, sync)) = ends.get(i as usize / 36) {
        t.front = *front;
        t.sync = *sync;
    }
    let blanking = |axis: usize, more: u64| (t.front[axis] + t.sync[axis] + more as u16).saturating_sub(1);
    t.blanking = [blanking(0, i / 12 % 3), blanking(1, i / 4 % 3)];
    block_with(i % 4, t.bytes())
}

/// Widths whose low byte is zero, from 256 to 3,840, in each slot: a descriptor whose tag is the blanking's low byte.
fn width(i: u64, dice: &mut Dice) -> Vec<u8> {
    let mut t = Timing::good(dice);
    t.active[0] = (1 + i / 4 % 15) as u16 * 256;
    let mut b = t.bytes();
    if i < 60 {
        b[3] = dice.telling();
    }
    block_with(i % 4, b)
}

/// A walk through all numbers below each power of two, another one for each k.
fn turn(i: u64, k: u64) -> u64 {
    i * (2 * k + 1) + 37 * k
}

/// All 256 values of each byte from the maker to the eight pairs, and of those of a timing's flags, of fa, fb and fd with GTF: in one
/// frame each of these bytes is at another place of its walk.
fn value(i: u64, dice: &mut Dice) -> Vec<u8> {
    let run = |from: u64, n: u64| (from..from + n).map(|k| turn(i, k) as u8).collect::<Vec<u8>>();
    let mut first = Timing::good(dice);
    first.flags = i as u8;
    let six = tagged(dice, 0xfa, ended(run(54, 12), b"\n"));
    let mut points = white(dice, true, true);
    points[1..5].copy_from_slice(&run(66, 4));
    points[6..10].copy_from_slice(&run(70, 4));
    let points = tagged(dice, 0xfb, points);
    let limits = tagged(dice, 0xfd, ended(ended(run(74, 5), &[2, 0]), &run(79, 6)));
    let mut b = block(first.bytes(), [six, points, limits]);
    b[8..54].copy_from_slice(&run(8, 46));
    b
}

/// Every number of 10 bits in each chromaticity and in white points, every number of 12 bits in a timing's two sizes.
fn float(i: u64, dice: &mut Dice) -> Vec<u8> {
    let mut first = Timing::good(dice);
    first.size = [i as u16, 4095 - i as u16];
    let mut points = || {
        let mut rest = white(dice, true, true);
        for (k, point) in rest[..10].chunks_mut(5).enumerate() {
            let (x, y) = (turn(i, k as u64) % 1024, turn(i, k as u64 + 2) % 1024);
            point[1..4].copy_from_slice(&[(x % 4 * 4 + y % 4) as u8, (x / 4) as u8, (y / 4) as u8]);
        }
        tagged(dice, 0xfb, rest)
    };
    let later = [points(), SPECIMEN[72..90].to_vec(), points()];
    let mut b = block(first.bytes(), later);
    b[25] = 0;
    b[26] = 0;
    for k in 0..8 {
        let n = turn(i, k as u64) % 1024;
        b[27 + k] = (n / 4) as u8;
        b[25 + k / 4] |= (n as u8 % 4) << (6 - 2 * (k % 4));
    }
    b
}

/// Each byte that must hold one value, in each slot and each of its forms, holding another.
fn guard(i: u64, dice: &mut Dice) -> Vec<u8> {
    // Which slot, and its guarded bytes.
    let forms = [(2, 17..18), (3, 15..18), (4, 15..18), (5, 20..23), (6, 15..18), (7, 11..18), (8, 11..12)];
    let texts = (0..13).map(|line| (12 + line, 6 + line as usize..18));
    let mut places = forms.iter().cloned().chain(texts).flat_map(|(number, bytes)| bytes.map(move |at| (number, at)));
    let (number, at) = places.nth(i as usize / 3).expect("as many places as the kind's size says");
    let later_text = if number < 12 { 0 } else { 14 * dice.below(3) };
    let mut slot = variant(number + later_text, dice);
    let other = dice.telling();
    slot[at] = if other == slot[at] { dice.not(other) } else { other };
    block_with(1 + i % 3, slot)
}

/// Each byte of the specimen's header and slots set to each of twenty telling values; those between take all values in `value`.
fn byte(i: u64, _: &mut Dice) -> Vec<u8> {
    let mut b = SPECIMEN.to_vec();
    let at = i as usize / 20;
    b[if at < 8 { at } else { at + 46 }] = TELLING[i as usize % 20];
    b
}

/// Every m of GTF, three in a frame.
fn gtf(i: u64, dice: &mut Dice) -> Vec<u8> {
    let mut one = |m: u64| {
        let mut run = limits(dice, 2);
        run[9] = m as u8;
        run[10] = (m >> 8) as u8;
        tagged(dice, 0xfd, run)
    };
    block(SPECIMEN[54..72].to_vec(), [one(3 * i), one(3 * i + 1), one(3 * i + 2)])
}

/// Every combination of all that tells slots apart.
fn descriptors(i: u64, dice: &mut Dice) -> Vec<u8> {
    let first = Timing::good(dice).bytes();
    let (second, third) = (variant(i / VARIANTS / VARIANTS, dice), variant(i / VARIANTS % VARIANTS, dice));
    block(first, [second, third, variant(i % VARIANTS, dice)])
}

/// Six good blocks, each byte set to each telling value, cut at every place or not at all.
fn cut_byte(i: u64, dice: &mut Dice) -> Vec<u8> {
    let numbers = [[5, 5, 5], [1, 1, 1], [2, 6, 8], [0, 0, 0], [7, 12 + 14 + 3, 9], [12 + 7, 10, 40 + 13]][(i % 6) as usize];
    let slots = [variant(numbers[0], dice), variant(numbers[1], dice), variant(numbers[2], dice)];
    let mut b = block(SPECIMEN[54..72].to_vec(), slots);
    let at = (i / 6 % 142) as usize % b.len();
    b[at] = TELLING[(i / 6 / 142 % 20) as usize];
    b.truncate((i / 6 / 142 / 20) as usize);
    b
}

/// Any front, any slots, now and then a byte changed, an end cut off or bytes added.
fn mixed(_: u64, dice: &mut Dice) -> Vec<u8> {
    let first = Timing::good(dice).bytes();
    let mut one = || {
        let number = if dice.one_in(4) { 12 + dice.below(3 * 14) } else { dice.below(12) };
        let mut slot = variant(number, dice);
        if dice.one_in(8) {
            let at = slot.len() - 1 - dice.below(slot.len().min(13) as u64) as usize;
            slot[at] = dice.telling();
        }
        slot
    };
    let mut b = block(first, [one(), one(), one()]);
    let front = dice.bytes(30);
    b[8..38].copy_from_slice(&front);
    let eight = pairs(dice, 8);
    b[38..54].copy_from_slice(&eight);
    if dice.one_in(8) {
        let at = dice.below(b.len() as u64) as usize;
        b[at] = dice.byte();
    }
    if dice.one_in(8) {
        b.truncate(dice.below(1 + b.len() as u64) as usize);
    } else if dice.one_in(4) {
        let most = if dice.one_in(200) { 3900 } else { 64 };
        let more = dice.below(most) as usize;
        b.extend(dice.bytes(more));
    }
    b
}

/// A good start of 8, 54 or 72 bytes, then random ones of which one in four is a telling one, at most 300 in all. Every other slot of
/// the grid of 18 begins like a descriptor.
fn noise(_: u64, dice: &mut Dice) -> Vec<u8> {
    let n = if dice.one_in(4) { dice.below(301) as usize } else { 150 };
    let mut b: Vec<u8> = (0..n).map(|_| if dice.one_in(4) { dice.telling() } else { dice.byte() }).collect();
    for slot in (72..n).step_by(18) {
        if dice.one_in(2) {
            b[slot..n.min(slot + 3)].iter_mut().for_each(|byte| *byte = 0);
        }
    }
    let good = n.min([8, 54, 72, 72][dice.below(4) as usize]);
    b[..good].copy_from_slice(&SPECIMEN[..good]);
    b
}
