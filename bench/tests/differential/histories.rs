//! Histories: batches under rising numbers, each on the state that the one before it left, from keys never written on.
//! A book of what was last written on each key says what the state must be and which pages must be told that a key was
//! written; it knows the rules on versions from the words of documents 01 and 02 alone.

use crate::cases::{Commit, Lists, Plan};
use crate::forms::Kind;
use crate::joined::PlanAndCommit;
use crate::outcome::{Case, Outcome};
use crate::pages::{lay, value_of};
use crate::tally::Tally;
use nevolisca_bench::random::Random;
use nevolisca_bench::second::{Read, Version, Write, PAGE};

/// Batches of a history at most, and the reads and the writes of a page at most.
const BATCHES: usize = 8;
const ENTRIES: usize = 3;
/// The place of a key never written; its block and value are 0.
const NEVER: u16 = 65535;
/// What a delete adds to its page's place.
const MARK: u16 = 32768;
/// The verdicts that the book knows: of a page that is kept or passes, that is stale, and that fails.
const GOOD: u8 = 0;
const STALE: u8 = 1;
const FAILS: u8 = 3;

/// The word for what a version of the right form says of its key.
fn word(version: Version) -> &'static str {
    Kind::of(version).expect("the right form").word()
}

/// A page to be laid out.
struct Draft {
    ticket: u32,
    reads: Vec<Read>,
    writes: Vec<Write>,
}

/// The last write of a key: by the page at a place of a block.
#[derive(Clone, Copy)]
struct Last {
    block: u32,
    place: u16,
    write: Write,
}

/// The last write of each key, and the version that the key had before it.
#[derive(Clone)]
struct Book {
    last: Vec<Option<Last>>,
    before: Vec<Version>,
}

impl Book {
    fn never_written(keys: usize) -> Self {
        let (block, place) = (0, NEVER);
        Book {
            last: vec![None; keys],
            before: vec![Version { block, place }; keys],
        }
    }

    fn keys(&self) -> usize {
        self.last.len()
    }

    /// Whether a key is absent, deleted or present, in that word.
    fn word(&self, key: u16) -> &'static str {
        word(self.entry(key).0)
    }

    /// The version and the value that a key has.
    fn entry(&self, key: u16) -> (Version, i64) {
        let (block, place, value) = match self.last[usize::from(key)] {
            None => (0, NEVER, 0),
            Some(last) if last.write.kind == 1 => (last.block, last.place + MARK, 0),
            Some(last) => (last.block, last.place, last.write.value),
        };
        (Version { block, place }, value)
    }

    /// The state under n.
    fn state(&self, n: u32) -> Lists {
        let mut state = Lists::absent(self.keys(), n);
        for key in 0..self.keys() as u16 {
            let (version, value) = self.entry(key);
            state.view_mut().set(key, version, value);
        }
        state
    }

    /// Takes down the writes of the page at a place of a block.
    fn write(&mut self, page: &Draft, block: u32, place: usize) {
        let place = place as u16;
        for &write in &page.writes {
            let key = usize::from(write.key);
            self.before[key] = self.entry(write.key).0;
            self.last[key] = Some(Last {
                block,
                place,
                write,
            });
        }
    }

    /// The reads of a page that do not name what their key has.
    fn wrong_reads<'a>(&'a self, page: &'a Draft) -> impl Iterator<Item = &'a Read> {
        let reads = page.reads.iter();
        reads.filter(|read| read.version != self.entry(read.key).0)
    }

    /// Whether a read takes a key that was written for one never written.
    fn forgets(&self, read: &Read) -> bool {
        read.version.place == NEVER && self.last[usize::from(read.key)].is_some()
    }

    /// Says whether a page's verdict is wrong: a page that takes a written key for absent gets the bad one, and so does
    /// any with a wrong read, and no other.
    fn check_verdict(&self, page: &Draft, verdict: u8, bad: u8) -> Result<(), String> {
        let ticket = page.ticket;
        if page.reads.iter().any(|read| self.forgets(read)) && verdict != bad {
            return Err(format!(
                "ticket {ticket} reads a written key as absent: {verdict}"
            ));
        }
        if self.wrong_reads(page).next().is_some() != (verdict == bad) {
            return Err(format!("ticket {ticket} is not to get verdict {verdict}"));
        }
        Ok(())
    }

    /// Says whether what a call left is another state: a key once written is never absent again, and every byte is as
    /// the last writes have it.
    fn check_state(&self, left: &Outcome) -> Result<(), String> {
        let places = left.list("places").chunks_exact(2);
        for (key, place) in places.enumerate() {
            if self.last[key].is_some() && place == NEVER.to_le_bytes() {
                return Err(format!("key {key} was written and is absent"));
            }
        }
        // The number is no part of the bytes.
        for (name, bytes) in self.state(0).bytes() {
            if left.list(name) != bytes {
                return Err(format!("{name} are not what was last written"));
            }
        }
        Ok(())
    }
}

/// What must occur in histories: a key that is read as it is on a page that is kept or passes; one that is read
/// otherwise on a page without another wrong read.
const READ_EVENTS: [&str; 9] = [
    "absent read",
    "deleted read",
    "present read",
    "absent read as deleted",
    "deleted read as absent",
    "deleted read as present",
    "present read as absent",
    "present read as deleted",
    "an earlier delete read",
];
/// What must occur too where a state is changed.
const WRITE_EVENTS: [&str; 7] = [
    "put on absent",
    "put on deleted",
    "put on present",
    "delete of absent",
    "delete of deleted",
    "delete of present",
    "delete at place 63",
];
/// How often each must occur at least.
const LEAST: u64 = 20;

/// How often each event occurred under a service.
pub struct Seen {
    service: &'static str,
    events: Vec<(&'static str, u64)>,
}

impl Seen {
    fn of(service: &'static str, events: &[&'static str]) -> Self {
        let events = events.iter().map(|&event| (event, 0)).collect();
        Seen { service, events }
    }

    /// Counts an event, if it is one that must occur.
    fn count(&mut self, occurred: &str) {
        let mut events = self.events.iter_mut();
        if let Some((_, count)) = events.find(|(event, _)| *event == occurred) {
            *count += 1;
        }
    }

    /// Counts the reads of a page over the book.
    fn reads(&mut self, book: &Book, page: &Draft, verdict: u8) {
        if verdict == GOOD {
            for read in &page.reads {
                self.count(&format!("{} read", book.word(read.key)));
            }
        }
        let wrong: Vec<&Read> = book.wrong_reads(page).collect();
        if let [read] = wrong[..] {
            let (held, named) = (book.word(read.key), word(read.version));
            self.count(&format!("{held} read as {named}"));
            if named == "deleted" && read.version == book.before[usize::from(read.key)] {
                self.count("an earlier delete read");
            }
        }
    }

    /// Counts the writes of a page at a place over the book, before it has them.
    fn writes(&mut self, book: &Book, page: &Draft, place: usize) {
        for write in &page.writes {
            let deletes = write.kind == 1;
            let how = if deletes { "delete of" } else { "put on" };
            self.count(&format!("{how} {}", book.word(write.key)));
            if deletes {
                self.count(&format!("delete at place {place}"));
            }
        }
    }

    /// Prints the counts, those of the reads in one line and those of the writes in another.
    pub fn print(&self) {
        let counts = self.events.iter();
        let counts: Vec<String> = counts
            .map(|(event, count)| format!("{event} {count}"))
            .collect();
        for line in counts.chunks(READ_EVENTS.len()) {
            println!("answers: {} in turn: {}", self.service, line.join(", "));
        }
    }

    /// What occurred too seldom, in words.
    pub fn faults(&self) -> Vec<String> {
        let seldom = self.events.iter().filter(|(_, count)| *count < LEAST);
        let name = self.service;
        seldom
            .map(|(event, count)| format!("{name} in turn: {event} occurred {count} times"))
            .collect()
    }
}

/// The pages of a batch under n. Where they follow each other, reads name what the earlier pages leave, else what the
/// batch finds; now and then one names what its key had earlier or never had. Without reads all pages are kept.
fn draw(random: &mut Random, book: &Book, n: u32, follows: bool) -> Vec<Draft> {
    let m = random.pick(&[1, 2, 3, 5, 8, 16, 64]);
    let most_reads = random.pick(&[0, 1, ENTRIES, ENTRIES]);
    let mut tickets: Vec<u32> = (0..m).collect();
    random.shuffle(&mut tickets);
    let mut now = book.clone();
    let mut pages = Vec::new();
    for (place, ticket) in tickets.into_iter().enumerate() {
        let page = Draft {
            ticket,
            reads: some_keys(random, most_reads, book.keys())
                .map(|key| some_read(random, &now, key))
                .collect(),
            writes: some_keys(random, ENTRIES, book.keys())
                .map(|key| some_write(random, key))
                .collect(),
        };
        if follows && now.wrong_reads(&page).next().is_none() {
            now.write(&page, n, place);
        }
        pages.push(page);
    }
    pages
}

/// Some keys, rising, and at most so many.
fn some_keys(random: &mut Random, most: usize, keys: usize) -> impl Iterator<Item = u16> {
    let count = random.below(most.min(keys) + 1);
    random.rising(count, keys).into_iter()
}

/// A read of what a key has; once in eight times of absent, of what it had before, or of the same place with a delete's
/// mark or without.
fn some_read(random: &mut Random, now: &Book, key: u16) -> Read {
    let held = now.entry(key).0;
    let deleted = Kind::of(held) == Some(Kind::Deleted);
    let mark = if deleted { 0 } else { MARK };
    let version = match random.below(24) {
        0 => Version::ABSENT,
        1 => now.before[usize::from(key)],
        2 => Version {
            block: held.block,
            place: held.place % 64 + mark,
        },
        _ => held,
    };
    Read { key, version }
}

/// A put, or as often a delete.
fn some_write(random: &mut Random, key: u16) -> Write {
    let kind = random.below(2) as u16;
    let value = value_of(random, kind);
    Write { key, kind, value }
}

/// A plan of pages over the book's state under n.
fn plan_of(pages: &[Draft], book: &Book, n: u32) -> Plan {
    let m = pages.len();
    let each = pages.iter();
    Plan {
        batch: each
            .flat_map(|page| lay(page.ticket, &page.reads, &page.writes))
            .collect(),
        state: book.state(n),
        verdicts: vec![9; m],
        order: vec![9; m],
        out: vec![9; m * PAGE],
    }
}

/// What a call leaves by the second opinion, which where there is a tally the proved one is held to.
fn ask<C: Case>(tally: &mut Option<&mut Tally>, case: &C) -> Outcome {
    if let Some(tally) = tally {
        tally.run(case);
    }
    let left = case.by_second();
    assert!(left.answer.is_ok(), "{:?}: {case:?}", left.answer);
    left
}

/// Fails with a case that is not as the book has it.
fn held<C: Case>(case: &C, told: Result<(), String>) {
    if let Err(told) = told {
        panic!("{:?}: {told}\n{case:?}", C::SERVICE);
    }
}

/// Plans a batch, and holds it to the book: the stale pages are those with a wrong read.
fn plan(
    seen: &mut Seen,
    tally: &mut Option<&mut Tally>,
    book: &Book,
    pages: &[Draft],
    case: &Plan,
) {
    let left = ask(tally, case);
    for (page, &verdict) in pages.iter().zip(left.list("verdicts")) {
        held(case, book.check_verdict(page, verdict, STALE));
        seen.reads(book, page, verdict);
    }
}

/// Commits a batch, and holds it to the book, which takes down the passing pages each at its index.
fn commit(
    seen: &mut Seen,
    tally: &mut Option<&mut Tally>,
    book: &mut Book,
    pages: &[Draft],
    case: &Commit,
) {
    let left = ask(tally, case);
    for (index, (page, &verdict)) in pages.iter().zip(left.list("verdicts")).enumerate() {
        held(case, book.check_verdict(page, verdict, FAILS));
        seen.reads(book, page, verdict);
        if verdict == GOOD {
            seen.writes(book, page, index);
            book.write(page, case.state.n, index);
        }
    }
    held(case, book.check_state(&left));
}

/// Plans and commits a batch at once, and holds it to the book, which takes down the kept pages each at its place in the
/// order.
fn plan_and_commit(
    seen: &mut Seen,
    tally: &mut Option<&mut Tally>,
    book: &mut Book,
    pages: &[Draft],
    case: &PlanAndCommit,
) {
    let left = ask(tally, case);
    let verdicts = left.list("verdicts");
    for (page, &verdict) in pages.iter().zip(verdicts) {
        held(case, book.check_verdict(page, verdict, STALE));
        seen.reads(book, page, verdict);
    }
    let kept = verdicts.iter().filter(|&&verdict| verdict == GOOD).count();
    for (place, &index) in left.list("order")[..kept].iter().enumerate() {
        let page = &pages[usize::from(index)];
        seen.writes(book, page, place);
        book.write(page, case.state.n, place);
    }
    held(case, book.check_state(&left));
}

/// Batches under rising numbers, each on the book as the one before left it.
fn history(random: &mut Random, mut batch: impl FnMut(&mut Random, &mut Book, u32)) {
    let mut book = Book::never_written(random.pick(&[1, 2, 3, 8, 64, 1024]));
    let mut next = Some(random.pick(&[0, 1, 5, u32::MAX - 5]));
    for _ in 0..BATCHES {
        let Some(n) = next else {
            return;
        };
        batch(random, &mut book, n);
        next = n.checked_add(random.pick(&[1, 1, 2, 1000]));
    }
}

/// Histories of batches that are planned and then committed whole, and of batches that are planned and committed at once.
pub fn histories(random: &mut Random, tally: &mut Option<&mut Tally>, count: usize) -> [Seen; 3] {
    let both = [&READ_EVENTS[..], &WRITE_EVENTS].concat();
    let mut planned = Seen::of("plan", &READ_EVENTS);
    let mut committed = Seen::of("commit", &both);
    let mut joined = Seen::of("plan and commit", &both);
    for _ in 0..count {
        history(random, |random, book, n| {
            let follows = random.once_in(2);
            let pages = draw(random, book, n, follows);
            let case = plan_of(&pages, book, n);
            plan(&mut planned, tally, book, &pages, &case);
            let (batch, state, verdicts) = (case.batch, case.state, case.verdicts);
            let case = Commit {
                batch,
                state,
                verdicts,
            };
            commit(&mut committed, tally, book, &pages, &case);
        });
        history(random, |random, book, n| {
            let pages = draw(random, book, n, false);
            let case = PlanAndCommit::from(&plan_of(&pages, book, n));
            plan_and_commit(&mut joined, tally, book, &pages, &case);
        });
    }
    [planned, committed, joined]
}

#[test]
fn the_second_opinion_forgets_no_key_in_any_history() {
    let seen = histories(&mut Random::new(crate::seed()), &mut None, 500);
    let faults: Vec<String> = seen.iter().flat_map(Seen::faults).collect();
    assert!(faults.is_empty(), "{faults:#?}");
}

#[test]
fn histories_in_which_nothing_occurs_are_noticed() {
    let seen = histories(&mut Random::new(crate::seed()), &mut None, 0);
    let faults = seen.each_ref().map(|seen| seen.faults().len());
    let both = READ_EVENTS.len() + WRITE_EVENTS.len();
    assert_eq!(faults, [READ_EVENTS.len(), both, both]);
}

/// A lot that was closed in block 7, by a delete on key 1 of 2, and the clerk's page that still reads it as absent.
fn closed_lot() -> (Book, Draft) {
    let (key, kind, value) = (1, 1, 0);
    let close = Draft {
        ticket: 4,
        reads: Vec::new(),
        writes: vec![Write { key, kind, value }],
    };
    let mut book = Book::never_written(2);
    book.write(&close, 7, 5);
    let version = Version::ABSENT;
    let clerk = Draft {
        ticket: 9,
        reads: vec![Read { key, version }],
        writes: Vec::new(),
    };
    (book, clerk)
}

#[test]
fn a_page_that_reads_a_closed_lot_as_absent_and_is_taken_is_noticed() {
    let (book, clerk) = closed_lot();
    let told = Err("ticket 9 reads a written key as absent: 0".to_string());
    for bad in [STALE, FAILS] {
        assert_eq!(book.check_verdict(&clerk, bad, bad), Ok(()));
        assert_eq!(book.check_verdict(&clerk, GOOD, bad), told);
    }
}

#[test]
fn a_delete_that_leaves_anything_else_is_noticed() {
    let book = closed_lot().0;
    let left = |block, place, value| {
        let mut state = Lists::absent(2, 8);
        let version = Version { block, place };
        state.view_mut().set(1, version, value);
        let (answer, lent, guards_stand) = (Ok(1), state.bytes(), true);
        book.check_state(&Outcome {
            answer,
            lent,
            guards_stand,
        })
    };
    assert_eq!(left(7, 32773, 0), Ok(()));
    let not_written = |name| Err(format!("{name} are not what was last written"));
    let forgotten = "key 1 was written and is absent".to_string();
    assert_eq!(left(0, 65535, 0), Err(forgotten));
    assert_eq!(left(6, 32773, 0), not_written("blocks"));
    assert_eq!(left(7, 5, 0), not_written("places"));
    assert_eq!(left(7, 32774, 0), not_written("places"));
    assert_eq!(left(7, 32773, 68400), not_written("values"));
}
