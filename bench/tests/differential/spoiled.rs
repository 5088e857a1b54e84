//! Wrong programs of the joined call: each is noticed, beside the second opinion and beside the two calls.

use crate::cases::Lists;
use crate::joined::PlanAndCommit;
use crate::outcome::{compare, Case, Lent, Outcome, Service};
use crate::pages::lay;
use crate::tally::Tally;
use nevolisca_bench::second::{Page, Read, Version, Write, PAGE};

fn read(key: u16, version: Version) -> Read {
    Read { key, version }
}

fn put(key: u16, value: i64) -> Write {
    let kind = 0;
    Write { key, kind, value }
}

/// Four pages over four absent keys. Ticket 4 reads key 1 and ticket 9 puts on it, so page 1 stands before page 0; both
/// put on key 3. Ticket 12 would stand before 4, by key 3, and after it, by key 1. Ticket 15 reads what is not there.
fn two_kept_of_four() -> PlanAndCommit {
    let there = Version { block: 0, place: 0 };
    let pages = [
        lay(9, &[], &[put(1, 91), put(3, 93)]),
        lay(4, &[read(1, Version::ABSENT)], &[put(3, 43)]),
        lay(12, &[read(3, Version::ABSENT)], &[put(1, 121)]),
        lay(15, &[read(0, there)], &[put(0, 150)]),
    ];
    PlanAndCommit {
        batch: pages.concat(),
        state: Lists {
            blocks: vec![Version::ABSENT.block; 4],
            places: vec![Version::ABSENT.place; 4],
            values: vec![0; 4],
            n: 1,
        },
        verdicts: vec![7; 5],
        order: vec![7; 5],
    }
}

/// The page indexes and places of the kept in their turn.
const RIGHT: [(usize, u16); 2] = [(1, 0), (0, 1)];

/// What a program leaves that plans right, and whose state holds the puts of given pages with given places, in turn.
fn writing(case: &PlanAndCommit, turns: &[(usize, u16)]) -> Outcome {
    let (mut outcome, mut state) = (case.by_second(), case.state.clone());
    let block = state.n;
    for &(index, place) in turns {
        let bytes = &case.batch[index * PAGE..(index + 1) * PAGE];
        let page = Page::check(bytes).expect("a good page");
        for write in page.writes() {
            let version = Version { block, place };
            state.view_mut().set(write.key, version, write.value);
        }
    }
    for (name, bytes) in state.bytes() {
        *outcome.list_mut(name) = bytes;
    }
    outcome
}

/// What is said of an outcome beside the second opinion and beside the two calls: the same.
fn told(case: &PlanAndCommit, outcome: &Outcome) -> Result<(), String> {
    let two_calls = case.by_two_calls().expect("there are two calls");
    let told = compare(&case.lent(), outcome, &case.by_second());
    assert_eq!(compare(&case.lent(), outcome, &two_calls), told);
    told
}

#[test]
fn a_wrong_state_is_noticed() {
    let case = two_kept_of_four();
    assert_eq!(told(&case, &writing(&case, &RIGHT)), Ok(()));
    let versions_by_page_index = &[(1, 1), (0, 0)][..];
    let in_batch_order = &[(0, 1), (1, 0)];
    let a_cycle_too = &[(1, 0), (0, 1), (2, 2)];
    let a_stale_page_too = &[(1, 0), (0, 1), (3, 2)];
    let the_first_alone = &[(1, 0)];
    for (turns, difference) in [
        (versions_by_page_index, "places differs at byte Some(2)"),
        (in_batch_order, "places differs at byte Some(6)"),
        (a_cycle_too, "places differs at byte Some(2)"),
        (a_stale_page_too, "blocks differs at byte Some(0)"),
        (the_first_alone, "blocks differs at byte Some(4)"),
        (&[], "blocks differs at byte Some(4)"),
    ] {
        let wrong = writing(&case, turns);
        assert_eq!(told(&case, &wrong), Err(difference.to_string()));
    }
}

#[test]
fn a_kept_count_of_all_pages_is_noticed() {
    let case = two_kept_of_four();
    let mut wrong = case.by_second();
    assert_eq!(wrong.answer, Ok(2));
    wrong.answer = Ok(4);
    let difference = told(&case, &wrong).expect_err("noticed");
    assert_eq!(difference, "answers differ: Ok(4), not Ok(2)");
}

#[test]
fn a_state_that_changes_on_a_refusal_is_noticed() {
    let mut case = two_kept_of_four();
    let last = case.batch.len() - PAGE;
    case.batch[last] ^= 1;
    let right = case.by_second();
    assert!(right.answer.is_err());
    assert_eq!(told(&case, &right), Ok(()));
    for name in ["blocks", "places", "values", "verdicts", "order"] {
        let mut wrong = right.clone();
        wrong.list_mut(name)[3] ^= 1;
        let difference = format!("{name} differs at byte Some(3)");
        assert_eq!(told(&case, &wrong), Err(difference.clone()));
        let both = compare(&case.lent(), &wrong, &wrong);
        assert_eq!(both, Err(format!("changed on a refusal: {difference}")));
    }
}

/// A joined call that numbers versions by page index, and a second opinion that does so too.
#[derive(Debug)]
struct ByPageIndex(PlanAndCommit);

impl Case for ByPageIndex {
    const SERVICE: Service = PlanAndCommit::SERVICE;

    fn lent(&self) -> Lent {
        self.0.lent()
    }

    fn by_node(&self) -> Outcome {
        self.by_second()
    }

    fn by_second(&self) -> Outcome {
        writing(&self.0, &[(1, 1), (0, 0)])
    }

    fn by_two_calls(&self) -> Option<Outcome> {
        self.0.by_two_calls()
    }
}

#[test]
#[should_panic(expected = "beside the two calls: places differs")]
fn what_both_opinions_do_wrong_fails_the_run_beside_the_two_calls() {
    Tally::default().run(&ByPageIndex(two_kept_of_four()));
}

#[test]
fn a_run_without_a_refusal_is_noticed() {
    let mut tally = Tally::default();
    tally.run(&two_kept_of_four());
    let faults = tally.faults();
    for number in 0..=16 {
        let told = format!("plan and commit: number {number} occurred 0 times");
        assert_eq!(faults.contains(&told), number >= 2, "{told}");
    }
}
