//! The cases of oracle/cases.txt, which says how a case is written.

const SPECIMEN: &[u8; 128] = include_bytes!("../../docs/specimen.bin");
/// The shortest block that is accepted.
const S88: &str = "00 FF x6 00 x47 01 00 01 00 x18 10 00 x4 10 00 x4 10 00 x2";

/// Each case: its bytes, and lines of the listing, the first one first.
pub fn cases() -> impl Iterator<Item = (Vec<u8>, &'static str)> {
    let lines = include_str!("../cases.txt").lines().filter(|line| !line.is_empty() && !line.starts_with('#'));
    lines.map(|line| {
        let (changes, answer) = line.split_once(" -> ").expect("a case and its answer");
        (changed(changes), answer)
    })
}

fn changed(changes: &str) -> Vec<u8> {
    let mut block = SPECIMEN.to_vec();
    for change in changes.split(", ") {
        if change == "S88" {
            block = run(S88);
        } else if let Some(length) = change.strip_prefix("cut to ") {
            block.truncate(length.parse().expect("a length"));
        } else if let Some(bytes) = change.strip_prefix("then ") {
            block.extend(run(bytes));
        } else {
            let (at, bytes) = change.split_once(" = ").expect("a place and bytes");
            let (at, bytes) = (at.parse().expect("a place"), run(bytes));
            block.resize(block.len().max(at + bytes.len()), 0);
            block[at..at + bytes.len()].copy_from_slice(&bytes);
        }
    }
    block
}

/// Bytes in hex; `xN` has the one before it N times in all.
fn run(bytes: &str) -> Vec<u8> {
    let mut run = Vec::new();
    for word in bytes.split(' ') {
        match word.strip_prefix('x') {
            Some(times) => run.resize(run.len() - 1 + times.parse::<usize>().expect("a number of times"), run[run.len() - 1]),
            None => run.push(u8::from_str_radix(word, 16).expect("a byte in hex")),
        }
    }
    run
}

#[cfg(test)]
mod tests {
    use crate::checked::checked;

    /// An unchecked build does not stop at a back porch below zero: there the cases of refusal 6 say nothing of it.
    #[test]
    fn edid_rs_answers_as_document_01_says() {
        let checked = checked();
        for (block, answer) in super::cases().filter(|(_, answer)| checked || !answer.starts_with("refuse 6")) {
            let mut listing = Vec::new();
            crate::listing::list(&mut listing, block.clone());
            let listing = String::from_utf8(listing).unwrap();
            let mut wanted = answer.split("; ");
            assert_eq!(listing.lines().next(), wanted.next(), "{:02x?}", block);
            for line in wanted {
                assert!(listing.lines().any(|other| other == line), "{:02x?} without {}:\n{}", block, line, listing);
            }
        }
    }
}
