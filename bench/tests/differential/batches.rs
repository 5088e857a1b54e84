//! States and batches to plan and commit: with few and many conflicts, and with every kind of fault.

use crate::cases::{Commit, Lists, Plan};
use crate::joined::PlanAndCommit;
use crate::outcome::Case;
use crate::pages::{lay, mend, spoil, value_of, version, EDGE_BLOCKS, EDGE_VALUES};
use crate::tally::Tally;
use nevolisca_bench::random::Random;
use nevolisca_bench::second::{Read, Version, Write, PAGE};

const MOST_PAGES: usize = 64;
const MOST_KEYS: usize = 1024;
const TICKET: std::ops::Range<usize> = 4..8;

/// Places on both sides of the edges of a state's entries.
const STATE_PLACES: [u16; 8] = [63, 64, 32767, 32768, 32831, 32832, 65534, 65535];

/// A good state of K keys under n, all absent where no block is below n.
fn state_of(random: &mut Random, keys: usize, n: u32) -> Lists {
    let mut state = Lists::absent(keys, n);
    for key in 0..keys as u16 {
        if n > 0 {
            let (version, value) = some_entry(random, n);
            state.view_mut().set(key, version, value);
        }
    }
    state
}

/// An absent, deleted or present entry that can stand under n, which is not 0.
fn some_entry(random: &mut Random, n: u32) -> (Version, i64) {
    let (low, any) = (random.below(n as usize) as u32, random.below(64) as u16);
    let block = random.pick(&[0, n - 1, low]);
    let place = random.pick(&[0, 63, any]);
    match random.below(3) {
        0 => (Version::ABSENT, 0),
        1 => (Version::deleted(block, place), 0),
        _ => (Version { block, place }, value_of(random, 0)),
    }
}

/// A good state of some size under some n.
fn some_state(random: &mut Random) -> Lists {
    let any = 1 + random.below(MOST_KEYS);
    let keys = random.pick(&[1, 2, 3, 8, 64, 1023, 1024, any]);
    let some = random.word() as u32;
    let n = random.pick(&[0, 1, 2, 5, u32::MAX, some]);
    state_of(random, keys, n)
}

/// Spoils the lists' lengths, or one entry.
fn spoil_state(random: &mut Random, state: &mut Lists) {
    let shortest = state.places.len().min(state.values.len());
    if shortest == 0 {
        return;
    }
    let key = random.below(shortest);
    match random.below(10) {
        0 => state.blocks.push(0),
        1 => drop(state.places.pop()),
        2 => state.values.push(0),
        3 => resize_state(random, state),
        4 => {
            state.places[key] = random.pick(&STATE_PLACES);
            state.blocks[key] = random.pick(&EDGE_BLOCKS);
        }
        5 => state.blocks[key] = random.pick(&[state.n, state.n.wrapping_add(1), u32::MAX]),
        6 => state.values[key] = 1,
        7 => state.places[key] = random.pick(&STATE_PLACES),
        _ => spoil_deleted(random, state, key),
    }
}

/// A deleted key that is wrong in one way: with a value, with block n or one above, or with a place just outside.
fn spoil_deleted(random: &mut Random, state: &mut Lists, key: usize) {
    let n = state.n;
    let version = Version::deleted(n.saturating_sub(1), random.pick(&[0, 1, 62, 63]));
    state.view_mut().set(key as u16, version, 0);
    match random.below(5) {
        0 => state.values[key] = random.pick(&EDGE_VALUES[1..]),
        1 => state.blocks[key] = n,
        2 => state.blocks[key] = random.pick(&[n.saturating_add(1), u32::MAX]),
        3 => state.places[key] = 32767,
        _ => state.places[key] = 32832,
    }
}

/// Empty, or one key too many.
fn resize_state(random: &mut Random, state: &mut Lists) {
    let keys = random.pick(&[0, MOST_KEYS, MOST_KEYS + 1]);
    state.blocks.resize(keys, Version::ABSENT.block);
    state.places.resize(keys, Version::ABSENT.place);
    state.values.resize(keys, 0);
}

/// How a batch is drawn: how many keys it touches, how many reads and writes a page has, how often a read is wrong.
struct Style {
    span: usize,
    reads: usize,
    writes: usize,
    wrong: usize,
    follows: bool,
}

impl Style {
    fn draw(random: &mut Random, keys: usize) -> Self {
        Style {
            span: random.pick(&[1, 2, 4, 16, 64, 256, MOST_KEYS]).min(keys),
            reads: random.pick(&[0, 1, 1, 2, 3, 8, 25]),
            writes: random.pick(&[0, 1, 1, 2, 3, 8, 25]),
            wrong: random.pick(&[5, 20, 100, 10_000]),
            follows: random.once_in(2),
        }
    }
}

/// The pages of a batch over a state. Reads name the version at the start, or the one that earlier pages leave.
fn some_pages(random: &mut Random, state: &Lists, m: usize) -> Vec<Vec<u8>> {
    let style = Style::draw(random, state.values.len());
    let mut now: Vec<Version> = (0..state.values.len())
        .map(|key| state.view().version(key as u16))
        .collect();
    let mut tickets: Vec<u32> = (0..m as u32).collect();
    random.shuffle(&mut tickets);
    let stride = random.pick(&[1, 7, u32::MAX / 64]);
    let mut pages = Vec::new();
    for (place, &ticket) in tickets.iter().enumerate() {
        let reads = some_reads(random, &style, &now);
        let writes = some_writes(random, &style);
        if style.follows {
            follow(&mut now, &writes, state.n, place);
        }
        pages.push(lay(ticket.wrapping_mul(stride), &reads, &writes));
    }
    pages
}

fn some_reads(random: &mut Random, style: &Style, now: &[Version]) -> Vec<Read> {
    let count = random.below(style.reads.min(style.span) + 1);
    let keys = random.rising(count, style.span);
    let mut read = |key: u16| Read {
        key,
        version: if random.once_in(style.wrong) {
            mistaken(random, now[usize::from(key)])
        } else {
            now[usize::from(key)]
        },
    };
    keys.into_iter().map(&mut read).collect()
}

/// What may be named for a key that has a version: absent, or deleted or present at the same block and place, each of
/// which it may not be; or any version of the right form.
fn mistaken(random: &mut Random, held: Version) -> Version {
    let (block, place) = (held.block, held.place % 64);
    match random.below(4) {
        0 => Version::ABSENT,
        1 => Version::deleted(block, place),
        2 => Version { block, place },
        _ => version(random),
    }
}

fn some_writes(random: &mut Random, style: &Style) -> Vec<Write> {
    let count = random.below(style.writes.min(style.span) + 1);
    let keys = random.rising(count, style.span);
    let mut write = |key| {
        let kind = u16::from(random.once_in(4));
        let value = value_of(random, kind);
        Write { key, kind, value }
    };
    keys.into_iter().map(&mut write).collect()
}

/// The versions after a passing page: of n and its place, to which a delete adds 32768.
fn follow(now: &mut [Version], writes: &[Write], n: u32, place: usize) {
    for write in writes {
        let mark = if write.kind == 1 { 32768 } else { 0 };
        now[usize::from(write.key)] = Version {
            block: n,
            place: place as u16 + mark,
        };
    }
}

/// Gives a page another's ticket, or a key that the state may not have, or damages it.
fn spoil_pages(random: &mut Random, pages: &mut [Vec<u8>], keys: usize) {
    if pages.is_empty() {
        return;
    }
    let (one, other) = (random.below(pages.len()), random.below(pages.len()));
    match random.below(3) {
        0 => {
            let ticket = pages[other][TICKET].to_vec();
            pages[one][TICKET].copy_from_slice(&ticket);
            mend(&mut pages[one]);
        }
        1 => {
            let key = (keys.max(1) - 1 + random.below(2)).min(MOST_KEYS - 1) as u16;
            let read = Read {
                key,
                version: Version::ABSENT,
            };
            let write = Write {
                key,
                ..Write::default()
            };
            let ticket = u32::from_le_bytes(pages[one][TICKET].try_into().expect("four bytes"));
            pages[one] = match random.below(2) {
                0 => lay(ticket, &[read], &[]),
                _ => lay(ticket, &[], &[write]),
            };
        }
        _ => spoil(random, &mut pages[one]),
    }
}

/// A list of about m entries, full of anything; now and then one too short.
fn room(random: &mut Random, need: usize, short: bool) -> Vec<u8> {
    let len = if short {
        need.max(1) - 1
    } else {
        need + random.pick(&[0, 0, 1, 3, 70])
    };
    (0..len).map(|_| random.word() as u8).collect()
}

/// A batch and a state, with none to three faults.
fn draw(random: &mut Random) -> Plan {
    let mut state = some_state(random);
    let any = random.below(MOST_PAGES + 1);
    let m = random.pick(&[0, 1, 2, 3, 5, 8, 16, 64, any]);
    let mut pages = some_pages(random, &state, m);
    let (mut short, mut length) = (0, 0);
    for _ in 0..random.pick(&[0, 0, 0, 1, 1, 2, 3]) {
        match random.below(8) {
            0 => spoil_state(random, &mut state),
            1 => short = 1 + random.below(3),
            2 => length = 1 + random.below(3),
            _ => spoil_pages(random, &mut pages, state.values.len()),
        }
    }
    let mut batch = pages.concat();
    spoil_length(random, &mut batch, length);
    let m = batch.len() / PAGE;
    Plan {
        batch,
        state,
        verdicts: room(random, m, short == 1),
        order: room(random, m, short == 2),
        out: room(random, m * PAGE, short == 3),
    }
}

/// No multiple of 512 (1, 2), or 65 pages (3).
fn spoil_length(random: &mut Random, batch: &mut Vec<u8>, how: usize) {
    match how {
        1 => drop(batch.pop()),
        2 => batch.push(random.word() as u8),
        3 => batch.resize((MOST_PAGES + 1) * PAGE, 0),
        _ => {}
    }
}

/// Plans a batch, and plans and commits it at once.
fn run_plan(tally: &mut Tally, plan: &Plan) {
    tally.run(plan);
    tally.run(&PlanAndCommit::from(plan));
}

/// Plans and commits batches of every kind, in two calls and at once; what planning kept is committed too.
pub fn batches(random: &mut Random, tally: &mut Tally, count: usize) {
    for _ in 0..count {
        let plan = draw(random);
        run_plan(tally, &plan);
        tally.run(&Commit {
            batch: plan.batch.clone(),
            state: plan.state.clone(),
            verdicts: plan.verdicts.clone(),
        });
        commit_the_kept(plan, tally);
    }
}

/// The out batch of a plan, committed under the same number: the order matters, and none may fail.
fn commit_the_kept(mut plan: Plan, tally: &mut Tally) {
    let outcome = plan.by_second();
    let Ok(kept) = outcome.answer else {
        return;
    };
    plan.batch = outcome.list("out")[..kept as usize * PAGE].to_vec();
    plan_again(&plan, kept, tally);
    let case = Commit {
        batch: plan.batch,
        state: plan.state,
        verdicts: plan.verdicts,
    };
    assert_eq!(
        case.by_node().answer,
        Ok(kept),
        "the kept pages pass: {case:?}"
    );
    tally.run(&case);
}

/// An out batch, planned and committed at once: all of it is kept, each page at its place.
fn plan_again(plan: &Plan, kept: u32, tally: &mut Tally) {
    let case = PlanAndCommit::from(plan);
    let outcome = case.by_node();
    assert_eq!(outcome.answer, Ok(kept), "all are kept: {case:?}");
    let order = outcome.list("order").iter().take(kept as usize);
    assert!(order.copied().eq(0..kept as u8), "as they stand: {case:?}");
    tally.run(&case);
}

/// Pages that each read and write given keys, over an absent state.
fn small(sets: &[(u16, u16)], tickets: &[u32], keys: usize) -> Plan {
    let member = |set: u16| (0..keys as u16).filter(move |key| set >> key & 1 == 1);
    let page = |(&(reads, writes), &ticket): (&(u16, u16), &u32)| {
        let version = Version::ABSENT;
        let reads: Vec<Read> = member(reads).map(|key| Read { key, version }).collect();
        let value = i64::from(ticket);
        let writes = member(writes).map(|key| Write {
            key,
            kind: 0,
            value,
        });
        lay(ticket, &reads, &writes.collect::<Vec<Write>>())
    };
    let pages: Vec<Vec<u8>> = sets.iter().zip(tickets).map(page).collect();
    Plan {
        batch: pages.concat(),
        state: Lists::absent(keys, 1),
        verdicts: vec![9; sets.len()],
        order: vec![9; sets.len()],
        out: vec![9; sets.len() * PAGE],
    }
}

/// Every batch of three transactions over two keys under every ticket order.
pub fn all_of_three(tally: &mut Tally) {
    const ORDERS: [[u32; 3]; 6] = [
        [0, 1, 2],
        [0, 2, 1],
        [1, 0, 2],
        [1, 2, 0],
        [2, 0, 1],
        [2, 1, 0],
    ];
    for choice in 0..1u16 << 12 {
        let set = |page: u16| (choice >> (4 * page) & 3, choice >> (4 * page + 2) & 3);
        for tickets in &ORDERS {
            run_plan(tally, &small(&[set(0), set(1), set(2)], tickets, 2));
        }
    }
}

/// Every batch of four transactions that each read one of four keys and write one.
pub fn all_of_four(tally: &mut Tally) {
    for choice in 0..1u32 << 16 {
        let key = |at: u32| 1u16 << (choice >> (2 * at) & 3);
        let sets = [0, 1, 2, 3].map(|page| (key(2 * page), key(2 * page + 1)));
        run_plan(tally, &small(&sets, &[0, 1, 2, 3], 4));
    }
}
