//! Batches to measure: full pages over 1024 present keys, with conflicts of many shapes.
//!
//! Every page is filled up to 25 reads and 25 writes by keys that are only read or only written; they make no demand,
//! since two writers of one key make none. The pages of a batch stand in a random order of their tickets.
#![forbid(unsafe_code)]

use crate::random::Random;
use crate::second::{
    read_page, write_page, Read, State, StateMut, Transaction, Version, Write, PAGE,
};
use std::collections::BTreeSet;

/// Pages of a full batch.
pub const FULL_BATCH: usize = 64;
/// Reads, and writes, of a full page: 8 · 25 + 12 · 25 = 500.
pub const FULL_PAGE: usize = 25;

const KEYS: usize = 1024;
/// Keys below this one carry the conflicts; then come keys that are only read, then keys that are only written.
const ONLY_READ: usize = 512;
const ONLY_WRITTEN: usize = 768;
/// The number of the batch; every entry of the state has a lower block.
const N: u32 = 5;
const SEED: u64 = 7;

/// A state that is full of present entries.
#[derive(Clone)]
pub struct Ledger {
    pub blocks: Vec<u32>,
    pub places: Vec<u16>,
    pub values: Vec<i64>,
    pub n: u32,
}

impl Ledger {
    fn present() -> Self {
        Ledger {
            blocks: (0..KEYS).map(|key| key as u32 % N).collect(),
            places: (0..KEYS).map(|key| key as u16 % 64).collect(),
            values: (0..KEYS).map(|key| key as i64 * 1000).collect(),
            n: N,
        }
    }

    /// The state, to be looked at.
    pub fn view(&self) -> State<'_> {
        State {
            blocks: &self.blocks,
            places: &self.places,
            values: &self.values,
        }
    }

    /// The state, to be changed.
    pub fn view_mut(&mut self) -> StateMut<'_> {
        StateMut {
            blocks: &mut self.blocks,
            places: &mut self.places,
            values: &mut self.values,
        }
    }
}

/// A batch over a state, under a name.
pub struct Workload {
    pub name: String,
    pub batch: Vec<u8>,
    pub ledger: Ledger,
}

/// The keys that a transaction reads and writes.
#[derive(Clone, Default)]
struct Draft {
    reads: BTreeSet<u16>,
    writes: BTreeSet<u16>,
}

impl Draft {
    fn of(reads: &[usize], writes: &[usize]) -> Self {
        let keys = |list: &[usize]| list.iter().map(|&key| key as u16).collect();
        Draft {
            reads: keys(reads),
            writes: keys(writes),
        }
    }

    /// Adds keys that are only read, and only written, up to so many of each.
    fn fill(&mut self, random: &mut Random, each: usize) {
        while self.reads.len() < each {
            let key = ONLY_READ + random.below(ONLY_WRITTEN - ONLY_READ);
            self.reads.insert(key as u16);
        }
        while self.writes.len() < each {
            let key = ONLY_WRITTEN + random.below(KEYS - ONLY_WRITTEN);
            self.writes.insert(key as u16);
        }
    }

    /// The transaction; every read names the version of the state.
    fn transaction(&self, ticket: u32, state: State<'_>) -> Transaction {
        let mut transaction = Transaction {
            read_count: self.reads.len() as u32,
            write_count: self.writes.len() as u32,
            ticket,
            ..Transaction::default()
        };
        for (slot, &key) in transaction.reads.iter_mut().zip(&self.reads) {
            let version: Version = state.version(key);
            *slot = Read { key, version };
        }
        for (slot, &key) in transaction.writes.iter_mut().zip(&self.writes) {
            let value = i64::from(ticket) * 1000 + i64::from(key);
            let kind = 0;
            *slot = Write { key, kind, value };
        }
        transaction
    }
}

/// Lays out drafts, in rising ticket order, as pages in a random order, each filled up to so many reads and writes.
fn lay(name: impl Into<String>, drafts: Vec<Draft>, each: usize) -> Workload {
    let mut random = Random::new(SEED);
    let ledger = Ledger::present();
    let mut places: Vec<usize> = (0..drafts.len()).collect();
    random.shuffle(&mut places);
    let mut batch = vec![0; drafts.len() * PAGE];
    for (rank, (mut draft, place)) in drafts.into_iter().zip(places).enumerate() {
        draft.fill(&mut random, each);
        let ticket = 1_000_000 + 97 * rank as u32;
        let transaction = draft.transaction(ticket, ledger.view());
        write_page(&mut batch, place, &transaction).expect("a good transaction");
    }
    let name = name.into();
    Workload {
        name,
        batch,
        ledger,
    }
}

/// The batch with the lowest page's ticket on the last page too: every page is checked, then 15 is given there.
pub fn doubled(workload: &Workload) -> Workload {
    let mut batch = workload.batch.clone();
    let first = read_page(&batch[..PAGE]).expect("a good page");
    let last = batch.len() / PAGE - 1;
    let mut changed = read_page(&batch[last * PAGE..]).expect("a good page");
    changed.ticket = first.ticket;
    write_page(&mut batch, last, &changed).expect("a good transaction");
    Workload {
        name: workload.name.clone(),
        batch,
        ledger: workload.ledger.clone(),
    }
}

/// A full batch without conflicts.
pub fn no_conflicts() -> Workload {
    lay(
        "no conflicts",
        vec![Draft::default(); FULL_BATCH],
        FULL_PAGE,
    )
}

/// Each ticket must stand before the next one.
fn chain() -> Workload {
    let drafts = (0..FULL_BATCH).map(|i| Draft::of(&[i + 1], &[i]));
    lay("chain", drafts.collect(), FULL_PAGE)
}

/// Each ticket must stand after the next one.
fn reverse_chain() -> Workload {
    let drafts = (0..FULL_BATCH).map(|i| Draft::of(&[i], &[i + 1]));
    lay("reverse chain", drafts.collect(), FULL_PAGE)
}

/// Document 000, B.1: half of them write a key each, half of them read one each.
fn writes_then_reads() -> Workload {
    let half = FULL_BATCH / 2;
    let writers = (0..half).map(|key| Draft::of(&[], &[key]));
    let readers = (0..half).map(|key| Draft::of(&[key], &[]));
    lay(
        "000 B.1: writes, then reads",
        writers.chain(readers).collect(),
        FULL_PAGE,
    )
}

/// Document 000, B.2: cycles of t, of the form r0 w0, r0 w1, r1 w2, ..., r(t-2) w0.
fn cycles(t: usize) -> Workload {
    let draft = |i: usize| {
        let (cycle, step) = (i / t, i % t);
        let key = |number: usize| cycle * t + number;
        let written = if step + 1 == t { 0 } else { step };
        Draft::of(&[key(step.max(1) - 1)], &[key(written)])
    };
    let name = format!("000 B.2: cycles of {t}");
    lay(name, (0..FULL_BATCH).map(draft).collect(), FULL_PAGE)
}

/// Each ticket reads and writes so many of so many keys.
fn random_conflicts(pages: usize, touched: usize, of: usize) -> Vec<Draft> {
    let mut random = Random::new(SEED + 1);
    let mut keys = || -> Vec<usize> {
        let drawn = random.rising(touched, of);
        drawn.into_iter().map(usize::from).collect()
    };
    (0..pages).map(|_| Draft::of(&keys(), &keys())).collect()
}

/// A few of the reads and of the writes of each ticket go to a few keys.
fn hot_keys(touched: usize, of: usize) -> Workload {
    let drafts = random_conflicts(FULL_BATCH, touched, of);
    lay(format!("hot keys: {touched} of {of}"), drafts, FULL_PAGE)
}

fn dense() -> Workload {
    lay(
        "dense: 25 of 256",
        random_conflicts(FULL_BATCH, FULL_PAGE, 256),
        FULL_PAGE,
    )
}

/// The lowest ticket reads 25 keys and writes 25; each other reads one of the latter and writes one of the former.
fn wide_first() -> Workload {
    let wide: Vec<usize> = (0..2 * FULL_PAGE).collect();
    let mut drafts = vec![Draft::of(&wide[..FULL_PAGE], &wide[FULL_PAGE..])];
    for i in 1..FULL_BATCH {
        let lot = i % FULL_PAGE;
        drafts.push(Draft::of(&[FULL_PAGE + lot], &[lot]));
    }
    lay("one wide ticket first", drafts, FULL_PAGE)
}

/// All planning workloads.
pub fn all() -> Vec<Workload> {
    let mut all = vec![
        no_conflicts(),
        chain(),
        reverse_chain(),
        writes_then_reads(),
    ];
    all.extend([2, 4, 8, 16, 32].map(cycles));
    all.extend(
        [(1, 64), (1, 32), (1, 16), (2, 64), (2, 16)].map(|(touched, of)| hot_keys(touched, of)),
    );
    all.extend([dense(), wide_first()]);
    all
}

/// Growth with the number of pages: full pages, each with one read and one write of 32 hot keys.
pub fn by_pages(pages: usize) -> Workload {
    lay(
        format!("{pages}"),
        random_conflicts(pages, 1, 32),
        FULL_PAGE,
    )
}

/// Growth with the reads and writes of each of 64 pages, without conflicts.
pub fn by_entries(each: usize) -> Workload {
    lay(format!("{each}"), vec![Draft::default(); FULL_BATCH], each)
}

/// Growth with the conflicts: so many of 25 reads and of 25 writes of each of 64 pages go to 64 hot keys.
pub fn by_hot(touched: usize) -> Workload {
    lay(
        format!("{touched}"),
        random_conflicts(FULL_BATCH, touched, 64),
        FULL_PAGE,
    )
}
