//! What the reads of batches name beside what their keys have, and which deleted entries are refused: counted by kind,
//! since each must occur.

use crate::cases::Lists;
use crate::forms::Kind;
use nevolisca_bench::second::{Page, Version, PAGE};
use std::cmp::Ordering;

/// How a deleted entry can be wrong in one way.
const WRONG: [&str; 5] = [
    "with a value",
    "with block n",
    "with a block above n",
    "place 32767",
    "place 32832",
];
/// How often each must occur at least: more often than where every form is tried.
const LEAST: u64 = 40;

/// The kind of a version that a service has taken.
fn kind(version: Version) -> Kind {
    Kind::of(version).expect("a version of the right form")
}

/// The index in `WRONG` of an entry that would be a good deleted one under n but for one thing.
fn wrong(version: Version, value: i64, n: u32) -> Option<usize> {
    let (kind, order) = (Kind::of(version), version.block.cmp(&n));
    match (kind, version.place, value == 0, order) {
        (Some(Kind::Deleted), _, false, Ordering::Less) => Some(0),
        (Some(Kind::Deleted), _, true, Ordering::Equal) => Some(1),
        (Some(Kind::Deleted), _, true, Ordering::Greater) => Some(2),
        (None, 32767, true, Ordering::Less) => Some(3),
        (None, 32832, true, Ordering::Less) => Some(4),
        _ => None,
    }
}

/// What a service was asked, by kind.
#[derive(Default)]
pub struct Readings {
    /// By the kind that the key has as the batch finds it, the kind that is named, and whether it is the very version.
    reads: [[[u64; 2]; 3]; 3],
    /// By the index in `WRONG`.
    entries: [u64; WRONG.len()],
}

impl Readings {
    /// Counts the reads of a batch of good pages over a state.
    pub fn count_reads(&mut self, batch: &[u8], state: &Lists) {
        let pages = batch.chunks_exact(PAGE);
        let pages = pages.map(|bytes| Page::check(bytes).expect("a good page"));
        for read in pages.flat_map(|page| page.reads()) {
            let held = state.view().version(read.key);
            let same = usize::from(read.version == held);
            self.reads[kind(held) as usize][kind(read.version) as usize][same] += 1;
        }
    }

    /// Counts the entry at a key for which a state is refused.
    pub fn count_entry(&mut self, state: &Lists, key: usize) {
        let version = state.view().version(key as u16);
        if let Some(index) = wrong(version, state.values[key], state.n) {
            self.entries[index] += 1;
        }
    }

    /// Each way to read a key of a kind, with its words and count; there is no other absent version.
    fn reads_of(&self, held: Kind) -> Vec<(String, u64)> {
        let row = self.reads[held as usize];
        let mut ways = vec![("as it is".to_string(), row[held as usize][1])];
        for named in Kind::ALL {
            let count = row[named as usize][0];
            if named != held {
                ways.push((format!("as {}", named.word()), count));
            } else if named != Kind::Absent {
                ways.push(("as another".to_string(), count));
            }
        }
        ways
    }

    /// Its counts in words: of the reads, then of the entries.
    pub fn lines(&self) -> [String; 2] {
        let words = |(words, count): &(String, u64)| format!("{words} {count}");
        let list = |ways: Vec<(String, u64)>| ways.iter().map(words).collect::<Vec<_>>().join(", ");
        let reads = Kind::ALL.map(|held| format!("{} {}", held.word(), list(self.reads_of(held))));
        [reads.join("; "), list(self.entries())]
    }

    /// Each way in which a deleted entry is wrong, with its count.
    fn entries(&self) -> Vec<(String, u64)> {
        let words = WRONG.iter().map(|words| words.to_string());
        words.zip(self.entries).collect()
    }

    /// What occurred too seldom, in words.
    pub fn faults(&self) -> Vec<String> {
        let reads = Kind::ALL.into_iter().flat_map(|held| {
            let ways = self.reads_of(held).into_iter();
            ways.map(move |(words, count)| (format!("{} read {words}", held.word()), count))
        });
        let entries = self.entries().into_iter();
        let entries = entries.map(|(words, count)| (format!("deleted {words}"), count));
        let seldom = reads.chain(entries).filter(|(_, count)| *count < LEAST);
        seldom
            .map(|(words, count)| format!("{words} occurred {count} times"))
            .collect()
    }
}

#[test]
fn a_run_that_misses_a_reading_is_noticed() {
    let faults = Readings::default().faults();
    assert_eq!(faults.len(), 3 + 4 + 4 + WRONG.len());
    assert!(faults.contains(&"deleted read as absent occurred 0 times".to_string()));
}
