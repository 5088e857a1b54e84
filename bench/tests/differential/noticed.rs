//! The comparison can fail: every single wrong answer, byte or canary is noticed.

use crate::cases::{Commit, Lists, Plan, ReadPage};
use crate::guarded::Guarded;
use crate::outcome::{compare, Case, Outcome};
use crate::pages::{lay, mend};
use crate::tally::Tally;
use nevolisca_bench::answer::Refusal;
use nevolisca_bench::node;
use nevolisca_bench::second::{Read, Version, Write, PAGE};

/// Ticket 9 puts on key 1, ticket 4 reads it: both are kept, the reader first.
fn reader_and_writer() -> Plan {
    let version = Version::ABSENT;
    let (kind, value) = (0, 68400);
    let writer = lay(
        9,
        &[],
        &[Write {
            key: 1,
            kind,
            value,
        }],
    );
    let reader = lay(4, &[Read { key: 1, version }], &[]);
    Plan {
        batch: [writer, reader].concat(),
        state: Lists {
            blocks: vec![0; 2],
            places: vec![65535; 2],
            values: vec![0; 2],
            n: 1,
        },
        verdicts: vec![7; 3],
        order: vec![7; 3],
        out: vec![7; 2 * PAGE + 1],
    }
}

#[test]
fn a_turned_order_is_noticed() {
    let case = reader_and_writer();
    let (before, right) = (case.lent(), case.by_second());
    assert_eq!(compare(&before, &right, &right), Ok(()));
    let mut wrong = right.clone();
    wrong.list_mut("order").swap(0, 1);
    let difference = compare(&before, &wrong, &right).expect_err("noticed");
    assert_eq!(difference, "order differs at byte Some(0)");
}

#[test]
fn a_change_of_any_byte_is_noticed() {
    let case = reader_and_writer();
    let (before, right) = (case.lent(), case.by_second());
    for at in 0..right.lent.len() {
        for byte in 0..right.lent[at].1.len() {
            let mut wrong = right.clone();
            wrong.lent[at].1[byte] ^= 1;
            assert!(compare(&before, &wrong, &right).is_err());
        }
    }
}

#[test]
fn a_wrong_answer_is_noticed() {
    let case = reader_and_writer();
    let (before, right) = (case.lent(), case.by_second());
    let mut refused = right.clone();
    refused.answer = Err(Refusal {
        number: 2,
        place: 1,
    });
    let mut elsewhere = right.clone();
    elsewhere.answer = Err(Refusal {
        number: 2,
        place: 0,
    });
    assert!(compare(&before, &refused, &right).is_err());
    assert!(compare(&before, &refused, &elsewhere).is_err());
}

#[test]
fn a_change_on_a_refusal_is_noticed_even_when_both_make_it() {
    let mut case = reader_and_writer();
    case.batch[0] ^= 1;
    let (before, mut both) = (case.lent(), case.by_second());
    assert!(both.answer.is_err());
    assert_eq!(compare(&before, &both, &both.clone()), Ok(()));
    both.list_mut("verdicts")[2] ^= 1;
    assert!(compare(&before, &both, &both.clone()).is_err());
}

#[test]
fn any_written_canary_is_noticed() {
    let guarded = Guarded::around(&[1u16, 2, 3]);
    let cells = guarded.clone().cells_mut().len();
    for at in 0..cells {
        let mut written = guarded.clone();
        written.cells_mut()[at] ^= 1;
        let lent = written.lent() != guarded.lent();
        assert_eq!(written.stands(), lent, "a cell is lent or a canary");
    }
    let case = reader_and_writer();
    let (before, right) = (case.lent(), case.by_second());
    let mut wrong = right.clone();
    wrong.guards_stand = false;
    assert!(compare(&before, &wrong, &right).is_err());
}

/// A commit that checks reads against the start only, the first of document 01's easy errors.
#[derive(Debug)]
struct StartOnly(Commit);

impl Case for StartOnly {
    const SERVICE: crate::outcome::Service = Commit::SERVICE;

    fn lent(&self) -> crate::outcome::Lent {
        self.0.lent()
    }

    fn by_node(&self) -> Outcome {
        let mut wrong = self.0.by_node();
        wrong.list_mut("verdicts")[1] = 0;
        wrong.answer = Ok(2);
        wrong
    }

    fn by_second(&self) -> Outcome {
        self.0.by_second()
    }
}

#[test]
#[should_panic(expected = "answers differ")]
fn a_commit_that_looks_at_the_start_only_fails_the_run() {
    let plan = reader_and_writer();
    let (batch, state, verdicts) = (plan.batch, plan.state, plan.verdicts);
    let case = Commit {
        batch,
        state,
        verdicts,
    };
    Tally::default().run(&StartOnly(case));
}

#[test]
fn a_run_that_misses_a_number_is_noticed() {
    assert!(!Tally::default().faults().is_empty());
}

/// The second opinion, asked twice.
#[derive(Debug)]
struct Twice(ReadPage);

impl Case for Twice {
    const SERVICE: crate::outcome::Service = ReadPage::SERVICE;

    fn lent(&self) -> crate::outcome::Lent {
        self.0.lent()
    }

    fn by_node(&self) -> Outcome {
        self.0.by_second()
    }

    fn by_second(&self) -> Outcome {
        self.0.by_second()
    }
}

#[test]
fn a_run_that_misses_a_place_is_noticed() {
    let mut tally = Tally::default();
    let mut page = lay(1, &[], &[]);
    for (at, missed) in [(3, true), (0, false)] {
        page[at] = 1;
        mend(&mut page);
        tally.run(&Twice(ReadPage {
            page: page.clone(),
            into: node::Transaction::EMPTY,
        }));
        let told = "read page: number 3 not at each of its places".to_string();
        assert_eq!(tally.faults().contains(&told), missed);
    }
}
