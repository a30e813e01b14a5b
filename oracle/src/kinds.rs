//! Makes frames, and scripts of bursts: `oracle gen`, `oracle gen-bursts`, each with `[--seed S] [--count N] [--all]`. The same seed and
//! count give the same ones.
//!
//! Each kind of them is a numbered space. The small ones are taken whole, in their order; what is left of the count is shared evenly by
//! the large ones, each sampled by the seed, or taken whole where its share is as large. With `--all` every space that ends is taken
//! whole and the count goes to those that do not. How many of which kind stand where is printed on standard error.

use std::io::{self, BufWriter, Stdout, Write};

pub struct Kind<T> {
    pub name: &'static str,
    pub size: u64,
    pub make: fn(u64, &mut Dice) -> T,
}

impl<T> Kind<T> {
    /// Any one of the space.
    pub fn any(&self, dice: &mut Dice) -> T {
        (self.make)(dice.below(self.size), dice)
    }
}

pub const ENDLESS: u64 = u64::MAX;
const SMALL: u64 = 4000;

pub type Out = BufWriter<Stdout>;

pub fn generate<T>(args: &[String], kinds: &[Kind<T>], put: fn(&mut Out, T) -> io::Result<()>) -> io::Result<()> {
    let (mut seed, mut count, mut all) = (1, 100_000, false);
    let mut words = args.iter();
    while let Some(word) = words.next() {
        let mut number = || words.next().and_then(|n| n.parse().ok()).unwrap_or_else(|| crate::stop("a number is wanted"));
        match word.as_str() {
            "--seed" => seed = number(),
            "--count" => count = number(),
            "--all" => all = true,
            _ => crate::stop("gen and gen-bursts take --seed S, --count N and --all"),
        }
    }
    let mut out = BufWriter::with_capacity(1 << 16, io::stdout());
    let mut dice = Dice(seed);
    for (kind, wanted) in kinds.iter().zip(shares(kinds, count, all)) {
        eprintln!("{} {}", kind.name, wanted);
        for i in 0..wanted {
            let one = if wanted == kind.size { (kind.make)(i, &mut dice) } else { kind.any(&mut dice) };
            put(&mut out, one)?;
        }
    }
    out.flush()
}

/// A length in 16 bits, low byte first, and as many bytes.
pub fn put_run(out: &mut Out, run: &[u8]) -> io::Result<()> {
    out.write_all(&(run.len() as u16).to_le_bytes())?;
    out.write_all(run)
}

/// How many of each kind.
fn shares<T>(kinds: &[Kind<T>], count: u64, all: bool) -> Vec<u64> {
    let mut left = count;
    let mut shares = Vec::new();
    for (i, kind) in kinds.iter().enumerate() {
        let most = if kind.size <= SMALL { left } else { left / (kinds.len() - i) as u64 };
        let share = if all && kind.size != ENDLESS { kind.size } else { kind.size.min(most) };
        if !all || kind.size == ENDLESS {
            left -= share;
        }
        shares.push(share);
    }
    shares
}

/// Numbers by a seed: SplitMix64.
pub struct Dice(pub u64);

impl Dice {
    fn next(&mut self) -> u64 {
        self.0 = self.0.wrapping_add(0x9e37_79b9_7f4a_7c15);
        let mut z = self.0;
        z = (z ^ z >> 30).wrapping_mul(0xbf58_476d_1ce4_e5b9);
        z = (z ^ z >> 27).wrapping_mul(0x94d0_49bb_1331_11eb);
        z ^ z >> 31
    }

    pub fn below(&mut self, n: u64) -> u64 {
        self.next() % n
    }

    /// True once in n throws.
    pub fn one_in(&mut self, n: u64) -> bool {
        self.below(n) == 0
    }

    pub fn byte(&mut self) -> u8 {
        self.next() as u8
    }

    pub fn bytes(&mut self, n: usize) -> Vec<u8> {
        (0..n).map(|_| self.byte()).collect()
    }

    pub fn not(&mut self, taboo: u8) -> u8 {
        taboo.wrapping_add(1 + self.below(255) as u8)
    }
}
