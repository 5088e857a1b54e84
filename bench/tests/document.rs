//! Document 01's own worked cases, the offsets of document 02's E1 and the deleted keys of its E3, asked of both opinions;
//! where a case speaks of planning, of the joined call too.
#![forbid(unsafe_code)]

use nevolisca_bench::answer::{Answer, Refusal};
use nevolisca_bench::node;
use nevolisca_bench::second::{self, Read, State, StateMut, Transaction, Version, Write, PAGE};

const ABSENT: Version = Version::ABSENT;

fn refused(number: u32, place: u32) -> Answer {
    Err(Refusal { number, place })
}

fn put(key: u16, value: i64) -> Write {
    Write {
        key,
        kind: 0,
        value,
    }
}

fn delete(key: u16) -> Write {
    Write {
        key,
        kind: 1,
        value: 0,
    }
}

fn read(key: u16) -> Read {
    Read {
        key,
        version: ABSENT,
    }
}

fn read_at(key: u16, block: u32, place: u16) -> Read {
    let version = Version { block, place };
    Read { key, version }
}

fn transaction(ticket: u32, reads: &[Read], writes: &[Write]) -> Transaction {
    let mut transaction = Transaction {
        read_count: reads.len() as u32,
        write_count: writes.len() as u32,
        ticket,
        ..Transaction::default()
    };
    transaction.reads[..reads.len()].copy_from_slice(reads);
    transaction.writes[..writes.len()].copy_from_slice(writes);
    transaction
}

/// The page as both write it, and what both answer.
fn page(ticket: u32, reads: &[Read], writes: &[Write]) -> Result<Vec<u8>, Refusal> {
    let transaction = transaction(ticket, reads, writes);
    let (mut ours, mut theirs) = (vec![1; PAGE], vec![2; PAGE]);
    let answer = node::write_page(&mut ours, 0, node::Transaction::from(&transaction).parts());
    assert_eq!(
        answer,
        second::write_page(&mut theirs, 0, &transaction).map(|()| 0)
    );
    answer?;
    assert_eq!(ours, theirs);
    assert_eq!(second::read_page(&ours), Ok(transaction));
    Ok(ours)
}

/// What both answer to a page with some bytes changed, and the page; its check belongs to them, unless it is changed too.
fn read_changed(page: &[u8], changes: &[(usize, u8)]) -> (Answer, Vec<u8>) {
    let mut page = page.to_vec();
    changes.iter().for_each(|&(at, byte)| page[at] = byte);
    let weights = (1..).zip(&page[..508]);
    let check: u32 = weights
        .map(|(weight, &byte)| weight * u32::from(byte))
        .sum();
    if changes.iter().all(|(at, _)| *at < 508) {
        page[508..].copy_from_slice(&check.to_le_bytes());
    }
    let mut into = node::Transaction::EMPTY;
    let answer = node::read_page(&page, into.parts_mut());
    assert_eq!(answer, second::read_page(&page).map(|_| 0));
    (answer, page)
}

fn pages(list: &[(u32, &[Read], &[Write])]) -> Vec<u8> {
    let each = list
        .iter()
        .map(|(ticket, reads, writes)| page(*ticket, reads, writes));
    each.map(|page| page.expect("a good page"))
        .collect::<Vec<_>>()
        .concat()
}

/// A state as lists, and its number.
#[derive(Clone, Debug, PartialEq)]
struct Ledger {
    blocks: Vec<u32>,
    places: Vec<u16>,
    values: Vec<i64>,
    n: u32,
}

impl Ledger {
    fn absent(keys: usize, n: u32) -> Self {
        Ledger {
            blocks: vec![0; keys],
            places: vec![65535; keys],
            values: vec![0; keys],
            n,
        }
    }

    fn view_mut(&mut self) -> StateMut<'_> {
        StateMut {
            blocks: &mut self.blocks,
            places: &mut self.places,
            values: &mut self.values,
        }
    }

    fn entry(&self, key: usize) -> (u32, u16, i64) {
        (self.blocks[key], self.places[key], self.values[key])
    }
}

/// The answer, the verdicts and the order of both planners.
fn plan(batch: &[u8], ledger: &Ledger) -> (Answer, Vec<u8>, Vec<u8>, Vec<u8>) {
    let m = batch.len() / PAGE;
    let (mut verdicts, mut order, mut out) = (vec![9; m], vec![9; m], vec![9; m * PAGE]);
    let Ledger {
        blocks,
        places,
        values,
        n,
    } = ledger;
    let ours = node::plan(
        batch,
        blocks,
        places,
        values,
        *n,
        &mut verdicts,
        &mut order,
        &mut out,
    );
    let (mut verdicts2, mut order2, mut out2) = (vec![9; m], vec![9; m], vec![9; m * PAGE]);
    let state = State {
        blocks,
        places,
        values,
    };
    let theirs = second::plan(batch, state, *n, &mut verdicts2, &mut order2, &mut out2);
    assert_eq!(
        (ours, &verdicts, &order, &out),
        (theirs, &verdicts2, &order2, &out2)
    );
    (ours, verdicts, order, out)
}

/// The answer, the verdicts and the state of both commits.
fn commit(batch: &[u8], ledger: &Ledger) -> (Answer, Vec<u8>, Ledger) {
    let m = batch.len() / PAGE;
    let (mut ours, mut verdicts, n) = (ledger.clone(), vec![9; m], ledger.n);
    let (blocks, places, values) = (&mut ours.blocks, &mut ours.places, &mut ours.values);
    let answer = node::commit(batch, blocks, places, values, n, &mut verdicts);
    let (mut theirs, mut verdicts2) = (ledger.clone(), vec![9; m]);
    let state = theirs.view_mut();
    assert_eq!(answer, second::commit(batch, state, n, &mut verdicts2));
    assert_eq!((&verdicts, &ours), (&verdicts2, &theirs));
    (answer, verdicts, ours)
}

/// The answer, the verdicts, the order and the state of both joined calls.
fn plan_and_commit(batch: &[u8], ledger: &Ledger) -> (Answer, Vec<u8>, Vec<u8>, Ledger) {
    let m = batch.len() / PAGE;
    let (mut ours, n) = (ledger.clone(), ledger.n);
    let (mut verdicts, mut order) = (vec![9; m], vec![9; m]);
    let (blocks, places, values) = (&mut ours.blocks, &mut ours.places, &mut ours.values);
    let answer = node::plan_and_commit(batch, blocks, places, values, n, &mut verdicts, &mut order);
    let (mut theirs, mut verdicts2, mut order2) = (ledger.clone(), vec![9; m], vec![9; m]);
    let state = theirs.view_mut();
    assert_eq!(
        answer,
        second::plan_and_commit(batch, state, n, &mut verdicts2, &mut order2)
    );
    assert_eq!((&verdicts, &order, &ours), (&verdicts2, &order2, &theirs));
    (answer, verdicts, order, ours)
}

/// A text as both read it.
fn tonnage(text: &str) -> Result<i64, Refusal> {
    let mut kilograms = 0;
    let answer = node::read_tonnage(text.as_bytes(), &mut kilograms);
    let read = answer.map(|_| kilograms);
    assert_eq!(read, second::read_tonnage(text.as_bytes()));
    read
}

fn not_of_the_form() -> Result<i64, Refusal> {
    Err(Refusal {
        number: 18,
        place: 0,
    })
}

#[test]
fn ticket_7_puts_68400_on_key_5() {
    let page = page(7, &[], &[put(5, 68400)]).expect("good");
    let head = [0x54, 0, 1, 0, 7, 0, 0, 0, 5, 0, 0, 0, 0x30, 0x0B, 1];
    assert_eq!(page[..head.len()], head);
    assert!(page[head.len()..508].iter().all(|&byte| byte == 0));
    assert_eq!(page[508..], [0xC0, 3, 0, 0]);
}

#[test]
fn what_fits_on_a_page() {
    let reads: Vec<Read> = (0..32).map(read).collect();
    let writes: Vec<Write> = (0..32).map(|key| put(key, 1)).collect();
    assert!(page(1, &reads[..25], &writes[..25]).is_ok());
    assert_eq!(
        page(1, &reads[..26], &writes[..25]).map(|_| 0),
        refused(5, 1)
    );
    assert!(page(1, &reads, &writes[..20]).is_ok());
    assert_eq!(page(1, &reads, &writes[..21]).map(|_| 0), refused(5, 1));
}

#[test]
fn the_byte_of_each_fault() {
    let good = page(40, &[read(7)], &[put(5, 1), put(6, 2)]).expect("good");
    for (changes, number, place) in [
        (&[(508, good[508] ^ 1)][..], 2, 508),
        (&[(0, 0), (3, 1)], 3, 0),
        (&[(3, 1)], 3, 3),
        (&[(1, 33), (2, 33)], 4, 1),
        (&[(2, 33)], 4, 2),
        (&[(1, 32), (2, 32)], 5, 1),
        (&[(9, 4)], 6, 8),
        (&[(10, 64)], 7, 10),
        (&[(10, 64), (11, 128)], 7, 10),
        (&[(28, 5)], 8, 28),
        (&[(16, 6)], 8, 28),
        (&[(30, 2)], 9, 30),
        (&[(507, 1), (40, 1)], 10, 40),
    ] {
        let (answer, wrong) = read_changed(&good, changes);
        assert_eq!(answer, refused(number, place));
        let batch = [&page(1, &[], &[]).expect("good")[..], &wrong, &wrong].concat();
        let ledger = Ledger::absent(8, 1);
        assert_eq!(plan(&batch, &ledger).0, refused(number, 512 + place));
        assert_eq!(commit(&batch, &ledger).0, refused(number, 512 + place));
        let (answer, verdicts, order, after) = plan_and_commit(&batch, &ledger);
        assert_eq!(answer, refused(number, 512 + place));
        assert_eq!((verdicts, order, after), (vec![9; 3], vec![9; 3], ledger));
    }
}

#[test]
fn the_byte_that_an_entry_would_have() {
    let twice = [put(5, 1), put(5, 2)];
    assert_eq!(page(1, &[], &twice), Err(second_write(8 + 12)));
    assert_eq!(page(1, &[read(7)], &twice), Err(second_write(8 + 8 + 12)));
}

fn second_write(place: u32) -> Refusal {
    Refusal { number: 8, place }
}

#[test]
fn texts() {
    assert_eq!(tonnage("68,400"), Ok(68400));
    assert_eq!(tonnage("-0,050"), Ok(-50));
    for text in ["684", "-0,000", "68,4", "068,400", ""] {
        assert_eq!(tonnage(text), not_of_the_form());
    }
    assert_eq!(tonnage("9223372036854775,807"), Ok(i64::MAX));
    let outside = Err(Refusal {
        number: 19,
        place: 0,
    });
    assert_eq!(tonnage("9223372036854775,808"), outside);
    assert_eq!(tonnage("-9223372036854775,808"), Ok(i64::MIN));
}

#[test]
fn the_longest_text_has_21_bytes() {
    let mut buffer = [0; second::LONGEST];
    assert_eq!(second::write_tonnage(&mut buffer, i64::MIN), Ok(21));
    assert_eq!(&buffer, b"-9223372036854775,808");
}

#[test]
fn two_that_read_and_write_key_3() {
    let batch = pages(&[(9, &[read(3)], &[put(3, 1)]), (4, &[read(3)], &[put(3, 2)])]);
    let (answer, verdicts, order, _) = plan(&batch, &Ledger::absent(8, 1));
    assert_eq!((answer, verdicts, order), (Ok(1), vec![2, 0], vec![1, 9]));
    let (answer, verdicts, order, after) = plan_and_commit(&batch, &Ledger::absent(8, 1));
    assert_eq!((answer, verdicts, order), (Ok(1), vec![2, 0], vec![1, 9]));
    assert_eq!(after.entry(3), (1, 0, 2));
}

#[test]
fn the_reader_stands_first_even_with_the_higher_ticket() {
    let batch = pages(&[(1, &[], &[put(1, 5)]), (2, &[read(1)], &[])]);
    let (answer, verdicts, order, _) = plan(&batch, &Ledger::absent(8, 1));
    assert_eq!((answer, verdicts, order), (Ok(2), vec![0, 0], vec![1, 0]));
    let (answer, verdicts, order, after) = plan_and_commit(&batch, &Ledger::absent(8, 1));
    assert_eq!((answer, verdicts, order), (Ok(2), vec![0, 0], vec![1, 0]));
    assert_eq!(after.entry(1), (1, 1, 5));
}

#[test]
fn two_writers_of_key_3() {
    let batch = pages(&[(9, &[], &[put(3, 90)]), (4, &[], &[put(3, 40)])]);
    let (answer, verdicts, order, out) = plan(&batch, &Ledger::absent(8, 1));
    assert_eq!((answer, verdicts, order), (Ok(2), vec![0, 0], vec![1, 0]));
    let (_, _, after) = commit(&out, &Ledger::absent(8, 1));
    assert_eq!(after.entry(3), (1, 1, 90));
    let (answer, verdicts, order, after) = plan_and_commit(&batch, &Ledger::absent(8, 1));
    assert_eq!((answer, verdicts, order), (Ok(2), vec![0, 0], vec![1, 0]));
    assert_eq!(after.entry(3), (1, 1, 90));
}

#[test]
fn empty_and_full_batches() {
    let ledger = Ledger::absent(8, 1);
    assert_eq!(plan(&[], &ledger).0, Ok(0));
    assert_eq!(commit(&[], &ledger), (Ok(0), vec![], ledger.clone()));
    let nothing = (Ok(0), vec![], vec![], ledger.clone());
    assert_eq!(plan_and_commit(&[], &ledger), nothing);
    let all: Vec<u8> = (0..65)
        .flat_map(|ticket| page(ticket, &[], &[]).expect("good"))
        .collect();
    assert_eq!(plan(&all[..64 * PAGE], &ledger).0, Ok(64));
    assert_eq!(plan(&all, &ledger).0, refused(11, 0));
    assert_eq!(plan_and_commit(&all[..64 * PAGE], &ledger).0, Ok(64));
    assert_eq!(plan_and_commit(&all, &ledger).0, refused(11, 0));
}

#[test]
fn a_block_not_below_n() {
    let mut ledger = Ledger::absent(2, 5);
    let both = |ledger: &Ledger| [plan(&[], ledger).0, plan_and_commit(&[], ledger).0];
    (ledger.blocks[1], ledger.places[1]) = (5, 0);
    assert_eq!(both(&ledger), [refused(13, 1); 2]);
    ledger.blocks[1] = 4;
    assert_eq!(both(&ledger), [Ok(0); 2]);
    ledger.places[1] = 65535;
    assert_eq!(both(&ledger), [refused(13, 1); 2]);
}

/// Page 0 reads a version that is not there, page 1 one that is.
fn stale_and_current() -> Vec<u8> {
    let stale = Read {
        key: 0,
        version: Version { block: 0, place: 0 },
    };
    pages(&[(1, &[stale], &[put(1, 1)]), (2, &[read(0)], &[put(2, 2)])])
}

#[test]
fn a_failing_page_uses_up_its_place() {
    let (answer, verdicts, after) = commit(&stale_and_current(), &Ledger::absent(4, 7));
    assert_eq!((answer, verdicts), (Ok(1), vec![3, 0]));
    assert_eq!(after.entry(1), (0, 65535, 0));
    assert_eq!(after.entry(2), (7, 1, 2));
}

#[test]
fn a_stale_page_is_not_in_the_order_and_uses_up_no_place() {
    let ledger = Ledger::absent(4, 7);
    let (answer, verdicts, order, after) = plan_and_commit(&stale_and_current(), &ledger);
    assert_eq!((answer, verdicts, order), (Ok(1), vec![1, 0], vec![1, 9]));
    assert_eq!(after.entry(1), (0, 65535, 0));
    assert_eq!(after.entry(2), (7, 0, 2));
}

/// Key 2 of 4 is opened by the page at place 0 of block 1 and closed by the one at place 1 of block 2; the number is 3.
fn closed_lot() -> Ledger {
    let (_, _, mut ledger) = commit(&pages(&[(1, &[], &[put(2, 68400)])]), &Ledger::absent(4, 1));
    assert_eq!(ledger.entry(2), (1, 0, 68400));
    ledger.n = 2;
    let close: &[Read] = &[read_at(2, 1, 0)];
    let (_, _, mut ledger) = commit(&pages(&[(1, &[], &[]), (2, close, &[delete(2)])]), &ledger);
    ledger.n = 3;
    ledger
}

#[test]
fn a_closed_lot_is_not_a_lot_that_never_was() {
    let ledger = closed_lot();
    assert_eq!(ledger.entry(2), (2, 32769, 0));
    let closed = Version::deleted(2, 1);
    assert_eq!((closed.block, closed.place), (2, 32769));
    for (read, kept) in [
        (read(2), false),
        (read_at(2, 1, 0), false),
        (read_at(2, 2, 1), false),
        (read_at(2, 1, 32769), false),
        (read_at(2, 2, 32768), false),
        (read_at(2, 2, 32769), true),
        (read(3), true),
        (read_at(3, 0, 32768), false),
        (read_at(3, 0, 0), false),
    ] {
        let batch = pages(&[(9, &[read], &[put(1, 5)])]);
        let (count, stale, fails) = if kept { (1, 0, 0) } else { (0, 1, 3) };
        let (answer, verdicts, _, _) = plan(&batch, &ledger);
        assert_eq!((answer, verdicts), (Ok(count), vec![stale]), "{read:?}");
        let (answer, verdicts, committed) = commit(&batch, &ledger);
        assert_eq!((answer, verdicts), (Ok(count), vec![fails]), "{read:?}");
        let (answer, verdicts, _, after) = plan_and_commit(&batch, &ledger);
        assert_eq!((answer, verdicts), (Ok(count), vec![stale]), "{read:?}");
        assert_eq!((&after, after == ledger), (&committed, !kept));
    }
}

#[test]
fn a_delete_leaves_its_version_on_an_absent_a_deleted_and_a_present_key() {
    let mut ledger = closed_lot();
    (ledger.blocks[0], ledger.places[0], ledger.values[0]) = (2, 63, -50);
    let all = [delete(0), delete(2), delete(3)];
    let batch = pages(&[(7, &[], &[]), (8, &[], &[]), (9, &[], &all)]);
    let (_, _, committed) = commit(&batch, &ledger);
    let (_, _, _, after) = plan_and_commit(&batch, &ledger);
    assert_eq!(after, committed);
    for key in [0, 2, 3] {
        assert_eq!(after.entry(key), (3, 32770, 0));
    }
    assert_eq!(after.entry(1), (0, 65535, 0));
}

#[test]
fn the_place_in_the_order_is_the_place_of_a_delete() {
    let batch = pages(&[(1, &[], &[delete(1)]), (2, &[read(1)], &[])]);
    let ledger = Ledger::absent(4, 7);
    let (_, verdicts, after) = commit(&batch, &ledger);
    assert_eq!((verdicts, after.entry(1)), (vec![0, 3], (7, 32768, 0)));
    let (_, verdicts, order, after) = plan_and_commit(&batch, &ledger);
    assert_eq!((verdicts, order), (vec![0, 0], vec![1, 0]));
    assert_eq!(after.entry(1), (7, 32769, 0));
}

#[test]
fn the_forms_of_a_deleted_key() {
    let named = |block, place| page(1, &[read_at(5, block, place)], &[]).map(|_| 0);
    for (place, good) in [(32767, false), (32768, true), (32831, true), (32832, false)] {
        for block in [0, 4, u32::MAX] {
            let due = if good { Ok(0) } else { refused(7, 10) };
            assert_eq!(named(block, place), due);
        }
        for (block, value) in [(4, 0), (4, 1), (5, 0), (6, 0)] {
            let mut ledger = Ledger::absent(3, 5);
            (ledger.blocks[1], ledger.places[1], ledger.values[1]) = (block, place, value);
            let taken = good && (block, value) == (4, 0);
            let due = if taken { Ok(0) } else { refused(13, 1) };
            assert_eq!(plan(&[], &ledger).0, due);
            assert_eq!(commit(&[], &ledger).0, due);
            assert_eq!(plan_and_commit(&[], &ledger).0, due);
        }
    }
}

#[test]
fn the_listing() {
    let first = Read {
        key: 8,
        version: Version { block: 0, place: 0 },
    };
    let batch = pages(&[
        (10, &[], &[put(5, 68400)]),
        (20, &[read(5)], &[put(6, 100)]),
        (30, &[read(6)], &[put(7, -50)]),
        (40, &[read(7)], &[put(5, 1)]),
        (50, &[first], &[]),
    ]);
    let ledger = Ledger::absent(1024, 1);
    let (answer, verdicts, order, out) = plan(&batch, &ledger);
    assert_eq!((answer, verdicts), (Ok(3), vec![0, 0, 0, 2, 1]));
    assert_eq!(order[..3], [2, 1, 0]);
    let (answer, _, after) = commit(&out[..3 * PAGE], &ledger);
    assert_eq!(answer, Ok(3));
    listed(&after);
    let (answer, verdicts, order, after) = plan_and_commit(&batch, &ledger);
    assert_eq!((answer, verdicts), (Ok(3), vec![0, 0, 0, 2, 1]));
    assert_eq!(order, [2, 1, 0, 9, 9]);
    listed(&after);
}

/// The state of the listing: three present keys, and no other.
fn listed(after: &Ledger) {
    let mut right = Ledger::absent(1024, 1);
    for (key, place, value) in [(5, 2, 68400), (6, 1, 100), (7, 0, -50)] {
        (right.blocks[key], right.places[key]) = (1, place);
        right.values[key] = value;
    }
    assert_eq!(*after, right);
}
