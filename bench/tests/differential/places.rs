//! Faults of 2 to 10 at each place where they can stand: on a page to read, in a transaction to write, in a batch.
//! The answer that is due is known from how the fault was made, so that the second opinion is held to it too.

use crate::cases::{Commit, Lists, Plan, ReadPage, WritePage};
use crate::joined::PlanAndCommit;
use crate::outcome::Case;
use crate::pages::{
    entries, lay, mend, noise, transaction_of, EDGE_KINDS, EDGE_PLACES, EDGE_VALUES, OF_NEITHER,
};
use crate::tally::Tally;
use nevolisca_bench::answer::{Answer, Refusal};
use nevolisca_bench::random::Random;
use nevolisca_bench::second::{Read, Version, Write, ENTRIES, PAGE};
use std::collections::BTreeSet;
use std::ops::RangeInclusive;

/// The numbers whose place is an offset.
pub const AT_A_BYTE: RangeInclusive<usize> = 2..=10;
pub const MOST_PAGES: usize = 64;

/// Where the reads of a page begin and where its check stands.
const READS_AT: usize = 8;
const CHECK_AT: usize = 508;
const MOST_KEYS: u16 = 1024;

/// How often each fault of 2 to 5 and of 10 is tried at each of its offsets.
const TIMES: usize = 10;
/// How many batches there are for each number and page; for each number more than it has offsets.
const ROUNDS: usize = 8;

/// An entry: so many reads and writes stand on its page, and this is its index among its own.
#[derive(Clone, Copy)]
struct Entry {
    r: usize,
    w: usize,
    index: usize,
}

/// Every pair of counts for which a page has room.
fn all_counts() -> impl Iterator<Item = (usize, usize)> {
    let pairs = (0..=ENTRIES).flat_map(|r| (0..=ENTRIES).map(move |w| (r, w)));
    pairs.filter(|(r, w)| 8 * r + 12 * w <= 500)
}

/// Every read (6 and 7) or write (8 and 9) of every pair of counts.
fn all_entries(number: usize) -> impl Iterator<Item = Entry> {
    all_counts().flat_map(move |(r, w)| {
        let count = if number < 8 { r } else { w };
        (0..count).map(move |index| Entry { r, w, index })
    })
}

/// The offset that document 02 names for a fault of 6 to 9 at an entry.
fn offset(number: usize, Entry { r, index, .. }: Entry) -> usize {
    match number {
        6 => READS_AT + 8 * index,
        7 => READS_AT + 8 * index + 2,
        8 => READS_AT + 8 * r + 12 * index,
        _ => READS_AT + 8 * r + 12 * index + 2,
    }
}

/// Every offset that document 02 names for a number of 2 to 10.
pub fn offsets(number: usize) -> BTreeSet<usize> {
    match number {
        2 => BTreeSet::from([CHECK_AT]),
        3 => BTreeSet::from([0, 3]),
        4 => BTreeSet::from([1, 2]),
        5 => BTreeSet::from([1]),
        10 => (READS_AT..CHECK_AT).collect(),
        _ => all_entries(number)
            .map(|entry| offset(number, entry))
            .collect(),
    }
}

pub fn refused(number: usize, place: usize) -> Answer {
    Err(Refusal {
        number: number as u32,
        place: place as u32,
    })
}

/// The reads and writes of a page that has a fault of 6 to 9 at an entry. Now and then there is another of the same
/// number after it, and others of higher numbers anywhere.
fn faulty(random: &mut Random, number: usize, at: Entry) -> (Vec<Read>, Vec<Write>) {
    let (mut reads, mut writes) = entries(random, at.r, at.w);
    for later in (number..10).rev() {
        let count = if later < 8 { at.r } else { at.w };
        let from = if later == number { at.index + 1 } else { 0 };
        if from < count && random.once_in(3) {
            let other = from + random.below(count - from);
            spoil_entry(random, &mut reads, &mut writes, later, other);
        }
    }
    spoil_entry(random, &mut reads, &mut writes, number, at.index);
    (reads, writes)
}

/// Brings a fault of 6 to 9 to an entry.
fn spoil_entry(
    random: &mut Random,
    reads: &mut [Read],
    writes: &mut [Write],
    number: usize,
    index: usize,
) {
    match number {
        6 => spoil_key(random, reads, index, |read| &mut read.key),
        7 => {
            let version = &mut reads[index].version;
            version.place = random.pick(&EDGE_PLACES[OF_NEITHER..]);
            version.block = version.block.max(1);
        }
        8 => spoil_key(random, writes, index, |write| &mut write.key),
        _ => {
            writes[index].kind = random.pick(&EDGE_KINDS[1..]);
            writes[index].value = random.pick(&EDGE_VALUES[1..]);
        }
    }
}

/// Makes a key too high, or not above the one before it; or the one before as high as this one. Those before stay right.
fn spoil_key<T>(
    random: &mut Random,
    entries: &mut [T],
    index: usize,
    key: impl Fn(&mut T) -> &mut u16,
) {
    let high = random.pick(&[MOST_KEYS, MOST_KEYS + 1, 32768, 65535]);
    let here = *key(&mut entries[index]);
    let before = index.checked_sub(1).map(|at| *key(&mut entries[at]));
    match (before, random.below(4)) {
        (None, _) | (_, 0) => *key(&mut entries[index]) = high,
        (Some(before), 1) => *key(&mut entries[index]) = before,
        (Some(_), 2) if here < MOST_KEYS => *key(&mut entries[index - 1]) = here,
        (Some(before), _) => {
            *key(&mut entries[index]) = random.below(usize::from(before) + 1) as u16;
        }
    }
}

/// A page with a fault of a number of 2 to 10 at one of its offsets.
fn bad_page(random: &mut Random, number: usize, at: usize) -> Vec<u8> {
    match number {
        10 => spare_page(random, at),
        6..=9 => {
            let standing: Vec<Entry> = all_entries(number)
                .filter(|&entry| offset(number, entry) == at)
                .collect();
            let entry = random.pick(&standing);
            let (reads, writes) = faulty(random, number, entry);
            lay(random.word() as u32, &reads, &writes)
        }
        _ => head_page(random, number, at),
    }
}

/// A page with a spare byte that is not zero, and now and then another after it.
fn spare_page(random: &mut Random, at: usize) -> Vec<u8> {
    let fitting: Vec<(usize, usize)> = all_counts()
        .filter(|(r, w)| READS_AT + 8 * r + 12 * w <= at)
        .collect();
    let (r, w) = random.pick(&fitting);
    let (reads, writes) = entries(random, r, w);
    let mut page = lay(random.word() as u32, &reads, &writes);
    for spare in [at, at + random.below(CHECK_AT - at)] {
        page[spare] = random.pick(&[1, 2, 128, 255]);
    }
    mend(&mut page);
    page
}

/// A page with another check (2), mark or byte 3 (3), a count that is too high (4), or too little room (5).
fn head_page(random: &mut Random, number: usize, at: usize) -> Vec<u8> {
    let (reads, writes) = entries(random, 2, 2);
    let mut page = lay(random.word() as u32, &reads, &writes);
    if number == 2 {
        let (byte, bit) = (random.below(PAGE), random.below(8));
        page[byte] ^= 1 << bit;
        return page;
    }
    let high = 33 + random.below(223) as u8;
    match (number, at) {
        (3, 0) => (page[0], page[3]) = (0x55, random.pick(&[0, high])),
        (3, _) => page[3] = high,
        (4, 1) => (page[1], page[2]) = (high, random.pick(&[0, 32, 33, 255])),
        (4, _) => (page[1], page[2]) = (random.below(33) as u8, high),
        _ => (page[1], page[2]) = random.pick(&[(26, 25), (25, 26), (32, 21), (15, 32), (32, 32)]),
    }
    mend(&mut page);
    page
}

/// Holds the second opinion to the answer that is due, and where there is a tally the two opinions to each other.
pub fn run<C: Case>(tally: &mut Option<&mut Tally>, case: &C, due: Answer) {
    assert_eq!(case.by_second().answer, due, "{case:?}");
    if let Some(tally) = tally {
        tally.run(case);
    }
}

/// The same by each service on a batch.
pub fn run_batch(tally: &mut Option<&mut Tally>, plan: Plan, due: Answer) {
    run(tally, &plan, due);
    run(tally, &PlanAndCommit::from(&plan), due);
    let (batch, state, verdicts) = (plan.batch, plan.state, plan.verdicts);
    let commit = Commit {
        batch,
        state,
        verdicts,
    };
    run(tally, &commit, due);
}

/// Each of 6 to 9 at each entry of every pair of counts, read and written; the others at each of their offsets, read.
pub fn pages(random: &mut Random, tally: &mut Option<&mut Tally>) {
    for number in 6..=9 {
        for entry in all_entries(number) {
            let due = refused(number, offset(number, entry));
            let (reads, writes) = faulty(random, number, entry);
            let page = lay(random.word() as u32, &reads, &writes);
            let into = noise(random);
            run(tally, &ReadPage { page, into }, due);
            let from = transaction_of(random, &reads, &writes);
            let (batch, index) = (vec![7; 2 * PAGE], random.below(3));
            run(tally, &WritePage { batch, index, from }, due);
        }
    }
    for number in [2, 3, 4, 5, 10] {
        for at in offsets(number) {
            for _ in 0..TIMES {
                let (page, into) = (bad_page(random, number, at), noise(random));
                run(tally, &ReadPage { page, into }, refused(number, at));
            }
        }
    }
}

/// A batch with a bad page at an index, and now and then the same page again after it, over a state of one key.
fn batch_with(random: &mut Random, index: usize, bad: &[u8]) -> Plan {
    let m = index + 1 + random.below(MOST_PAGES - index);
    let again = index + random.below(m - index);
    let mut batch: Vec<u8> = (0..m as u32)
        .flat_map(|ticket| lay(ticket, &[], &[]))
        .collect();
    for at in [index, again] {
        batch[at * PAGE..(at + 1) * PAGE].copy_from_slice(bad);
    }
    Plan {
        batch,
        state: Lists {
            blocks: vec![Version::ABSENT.block],
            places: vec![Version::ABSENT.place],
            values: vec![0],
            n: 1,
        },
        verdicts: vec![9; m],
        order: vec![9; m],
        out: vec![9; m * PAGE],
    }
}

/// Each of 2 to 10 on each page of a batch, and at each of its offsets: the place is 512 times the page, plus the offset.
pub fn batches(random: &mut Random, tally: &mut Option<&mut Tally>) {
    for number in AT_A_BYTE {
        let all = offsets(number);
        let turns = all.iter().copied().cycle().take(ROUNDS * MOST_PAGES);
        let mut turns: Vec<usize> = turns.collect();
        random.shuffle(&mut turns);
        for (turn, at) in turns.into_iter().enumerate() {
            let index = turn % MOST_PAGES;
            let bad = bad_page(random, number, at);
            let due = refused(number, PAGE * index + at);
            run_batch(tally, batch_with(random, index, &bad), due);
        }
    }
}

#[test]
fn the_second_opinion_gives_the_place_of_each_fault() {
    let random = &mut Random::new(crate::seed());
    pages(random, &mut None);
    batches(random, &mut None);
}
