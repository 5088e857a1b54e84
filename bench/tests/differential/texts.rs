//! Tonnage texts to read and figures to write: of the form, near it, and at the ends of 64 bits.

use crate::cases::{ReadTonnage, WriteTonnage};
use crate::tally::Tally;
use nevolisca_bench::random::Random;
use nevolisca_bench::second::{write_tonnage, LONGEST};

const EDGES: [&str; 22] = [
    "",
    "-",
    ",",
    "0",
    "0,000",
    "-0,000",
    "-0,001",
    "00,000",
    "-00,001",
    "+1,000",
    "684",
    "68,4",
    "068,400",
    "68,400",
    "68,4000",
    "9223372036854775,807",
    "9223372036854775,808",
    "-9223372036854775,808",
    "-9223372036854775,809",
    "18446744073709551,616",
    "-18446744073709551,616",
    "99999999999999999999999999999999999999999999,999",
];
const ALPHABET: &[u8] = b"0123456789,-+. \0\xff/:";
const SMALL: &[u8] = b"-0,19";
const FIGURES: [i64; 12] = [
    0,
    1,
    -1,
    999,
    -999,
    1000,
    -1000,
    68400,
    i64::MAX,
    i64::MIN,
    i64::MAX - 1,
    i64::MIN + 1,
];

/// A figure of any size.
fn figure(random: &mut Random) -> i64 {
    if random.once_in(4) {
        random.pick(&FIGURES)
    } else {
        random.word() as i64 >> random.below(64)
    }
}

/// Puts in, takes out or changes one byte.
fn mutate(random: &mut Random, text: &mut Vec<u8>) {
    let at = random.below(text.len() + 1);
    let byte = random.pick(ALPHABET);
    match (random.below(3), at < text.len()) {
        (0, true) => text[at] = byte,
        (1, true) => drop(text.remove(at)),
        _ => text.insert(at, byte),
    }
}

/// Every text of up to seven bytes of a small alphabet.
pub fn all_short_texts(tally: &mut Tally) {
    for len in 0..=7u32 {
        for choice in 0..SMALL.len().pow(len) {
            let byte = |at| SMALL[choice / SMALL.len().pow(at) % SMALL.len()];
            let text = (0..len).map(byte).collect();
            tally.run(&ReadTonnage {
                text,
                kilograms: 77,
            });
        }
    }
}

/// Texts at the edges, good texts, and good texts changed a little.
pub fn read_texts(random: &mut Random, tally: &mut Tally, count: usize) {
    for turn in 0..count {
        let mut text = match EDGES.get(turn % (4 * EDGES.len())) {
            Some(edge) => edge.as_bytes().to_vec(),
            None => {
                let mut buffer = [0; LONGEST];
                let len = write_tonnage(&mut buffer, figure(random)).expect("it fits");
                buffer[..len as usize].to_vec()
            }
        };
        for _ in 0..if turn < EDGES.len() {
            0
        } else {
            random.below(3)
        } {
            mutate(random, &mut text);
        }
        let kilograms = random.word() as i64;
        tally.run(&ReadTonnage { text, kilograms });
    }
}

/// Figures into buffers that are long enough, exactly so, short by one, and empty.
pub fn write_texts(random: &mut Random, tally: &mut Tally, count: usize) {
    for _ in 0..count {
        let kilograms = figure(random);
        let len = write_tonnage(&mut [0; LONGEST], kilograms).expect("it fits") as usize;
        for room in [len, len - 1, len + 1, LONGEST, 40, 0] {
            let buffer = (0..room).map(|_| random.word() as u8).collect();
            tally.run(&WriteTonnage { buffer, kilograms });
        }
    }
}
