//! Every place that a version can have, in a read and in an entry of a state. The answer that is due is worked out here
//! from the words of documents 01 and 02, so that the second opinion is held to it too.

use crate::cases::{Lists, Plan, ReadPage, WritePage};
use crate::pages::{lay, EDGE_PLACES};
use crate::places::{refused, run, run_batch};
use crate::tally::Tally;
use nevolisca_bench::answer::Answer;
use nevolisca_bench::node;
use nevolisca_bench::second::{Read, Transaction, Version, PAGE};

/// The number under which entries are tried, blocks on both sides of it, and values.
const N: u32 = 5;
const BLOCKS: [u32; 6] = [0, 1, N - 1, N, N + 1, u32::MAX];
const VALUES: [i64; 5] = [0, 1, -1, i64::MIN, i64::MAX];
/// Where a read's version stands on a page whose first read it is.
const VERSION_AT: usize = 10;

/// What a version says of its key.
#[derive(Clone, Copy, Debug, PartialEq, Eq)]
pub enum Kind {
    Absent,
    Deleted,
    Present,
}

impl Kind {
    pub const ALL: [Kind; 3] = [Kind::Absent, Kind::Deleted, Kind::Present];

    /// The kind of a version, where it has the form of one.
    pub fn of(version: Version) -> Option<Self> {
        match (version.block, version.place) {
            (0, 65535) => Some(Kind::Absent),
            (_, 32768..=32831) => Some(Kind::Deleted),
            (_, 0..=63) => Some(Kind::Present),
            _ => None,
        }
    }

    /// Its word in the documents.
    pub fn word(self) -> &'static str {
        ["absent", "deleted", "present"][self as usize]
    }
}

/// What is due for a read of a version: 7 unless it has the form of one.
fn due_of_read(version: Version) -> Answer {
    match Kind::of(version) {
        Some(_) => Ok(0),
        None => refused(7, VERSION_AT),
    }
}

/// What is due for an empty batch over a state whose entry at a key is this, and whose others are good.
fn due_of_entry(version: Version, value: i64, key: usize) -> Answer {
    let good = match Kind::of(version) {
        Some(Kind::Absent) => value == 0,
        Some(Kind::Deleted) => value == 0 && version.block < N,
        Some(Kind::Present) => version.block < N,
        None => false,
    };
    if good {
        Ok(0)
    } else {
        refused(13, key)
    }
}

/// A page with one read of a version, read and written.
fn try_read(tally: &mut Option<&mut Tally>, version: Version) {
    let due = due_of_read(version);
    let read = Read { key: 3, version };
    let (page, into) = (lay(7, &[read], &[]), node::Transaction::EMPTY);
    run(tally, &ReadPage { page, into }, due);
    let mut transaction = Transaction {
        read_count: 1,
        ..Transaction::default()
    };
    transaction.reads[0] = read;
    let (batch, from) = (vec![9; PAGE], node::Transaction::from(&transaction));
    let index = 0;
    run(tally, &WritePage { batch, index, from }, due);
}

/// An entry as the middle one of three keys, under an empty batch, by each service that takes a state.
fn try_entry(tally: &mut Option<&mut Tally>, version: Version, value: i64) {
    let key = 1;
    let due = due_of_entry(version, value, key);
    let mut state = Lists::absent(3, N);
    state.view_mut().set(key as u16, version, value);
    let plan = Plan {
        batch: Vec::new(),
        state,
        verdicts: vec![9],
        order: vec![9],
        out: vec![9],
    };
    run_batch(tally, plan, due);
}

/// All places with a block below n and value 0; those at an edge with each block and each value.
pub fn forms(tally: &mut Option<&mut Tally>) {
    for place in 0..=u16::MAX {
        let block = N - 1;
        try_read(tally, Version { block, place });
        try_entry(tally, Version { block, place }, 0);
    }
    for place in EDGE_PLACES {
        for block in BLOCKS {
            try_read(tally, Version { block, place });
            for value in VALUES {
                try_entry(tally, Version { block, place }, value);
            }
        }
    }
}

#[test]
fn the_second_opinion_takes_each_form_and_no_other() {
    forms(&mut None);
}
