//! The joined call as a case: beside the second opinion, and beside the library's own plan and commit.

use crate::cases::{outcome, Commit, GuardedState, Lists, Plan};
use crate::guarded::Guarded;
use crate::outcome::{take, Case, Lent, Outcome, Service};
use crate::pages::lay;
use crate::places::{refused, run, MOST_PAGES};
use crate::tally::Tally;
use nevolisca_bench::node;
use nevolisca_bench::second::{self, Version, PAGE};

/// Each byte of a list that is lent to be filled, where nothing else is asked for.
const LENT: u8 = 9;

/// Planning a batch over a state and committing what is kept.
#[derive(Clone, Debug)]
pub struct PlanAndCommit {
    pub batch: Vec<u8>,
    pub state: Lists,
    pub verdicts: Vec<u8>,
    pub order: Vec<u8>,
}

/// The same lists as a plan is lent, without the out batch.
impl From<&Plan> for PlanAndCommit {
    fn from(plan: &Plan) -> Self {
        PlanAndCommit {
            batch: plan.batch.clone(),
            state: plan.state.clone(),
            verdicts: plan.verdicts.clone(),
            order: plan.order.clone(),
        }
    }
}

impl Case for PlanAndCommit {
    const SERVICE: Service = Service::PlanAndCommit;

    fn lent(&self) -> Lent {
        let mut lists = self.state.bytes();
        lists.push(("batch", self.batch.clone()));
        lists.push(("verdicts", self.verdicts.clone()));
        lists.push(("order", self.order.clone()));
        lists
    }

    fn by_node(&self) -> Outcome {
        let batch = Guarded::around(&self.batch);
        let mut state = GuardedState::around(&self.state);
        let mut verdicts = Guarded::around(&self.verdicts);
        let mut order = Guarded::around(&self.order);
        let mut outcome = outcome(node::plan_and_commit(
            batch.lent(),
            state.blocks.lent_mut(),
            state.places.lent_mut(),
            state.values.lent_mut(),
            self.state.n,
            verdicts.lent_mut(),
            order.lent_mut(),
        ));
        state.take_into(&mut outcome);
        take(&mut outcome, "batch", &batch);
        take(&mut outcome, "verdicts", &verdicts);
        take(&mut outcome, "order", &order);
        outcome
    }

    fn on_state(&self) -> Option<(&[u8], &Lists)> {
        Some((&self.batch, &self.state))
    }

    fn by_second(&self) -> Outcome {
        let mut after = self.clone();
        let mut outcome = outcome(second::plan_and_commit(
            &self.batch,
            after.state.view_mut(),
            self.state.n,
            &mut after.verdicts,
            &mut after.order,
        ));
        outcome.lent = after.lent();
        outcome
    }

    /// A plan with an out batch for every page; where it is not refused, a commit of what it kept.
    fn by_two_calls(&self) -> Option<Outcome> {
        let plan = Plan {
            batch: self.batch.clone(),
            state: self.state.clone(),
            verdicts: self.verdicts.clone(),
            order: self.order.clone(),
            out: vec![LENT; self.batch.len() / PAGE * PAGE],
        };
        let mut both = plan.by_node();
        let (_, out) = both.lent.pop().expect("the out batch");
        if let Ok(kept) = both.answer {
            let commit = Commit {
                batch: out[..kept as usize * PAGE].to_vec(),
                state: self.state.clone(),
                verdicts: vec![LENT; kept as usize],
            };
            add_commit(&mut both, &commit);
        }
        Some(both)
    }
}

/// Adds what a commit of the kept pages leaves to what their plan left; each of them passes.
fn add_commit(both: &mut Outcome, commit: &Commit) {
    let committed = commit.by_node();
    assert_eq!(committed.answer, both.answer, "the kept pages pass");
    let verdicts = committed.list("verdicts");
    assert!(verdicts.iter().all(|&passes| passes == 0), "{verdicts:?}");
    for name in ["blocks", "places", "values"] {
        *both.list_mut(name) = committed.list(name).to_vec();
    }
    both.guards_stand &= committed.guards_stand;
}

/// So many empty pages over a state of one absent key, with lists of given lengths to be filled.
fn empty_pages(m: usize, verdicts: usize, order: usize) -> PlanAndCommit {
    let tickets = 0..m as u32;
    PlanAndCommit {
        batch: tickets.flat_map(|ticket| lay(ticket, &[], &[])).collect(),
        state: Lists {
            blocks: vec![Version::ABSENT.block],
            places: vec![Version::ABSENT.place],
            values: vec![0],
            n: 1,
        },
        verdicts: vec![LENT; verdicts],
        order: vec![LENT; order],
    }
}

/// Lists that are just long enough and those that are too short, for each number of pages: 14 is given after 13 and
/// before a page's fault.
pub fn short_lists(tally: &mut Option<&mut Tally>) {
    for m in 0..=MOST_PAGES {
        run(tally, &empty_pages(m, m, m), Ok(m as u32));
    }
    for m in 1..=MOST_PAGES {
        for (verdicts, order) in [(m - 1, m), (m, m - 1), (m - 1, m - 1), (0, m), (m, 0)] {
            let mut short = empty_pages(m, verdicts, order);
            run(tally, &short, refused(14, 0));
            short.batch[PAGE * (m - 1)] ^= 1;
            run(tally, &short, refused(14, 0));
            short.state.values[0] = 1;
            run(tally, &short, refused(13, 0));
        }
    }
}

#[test]
fn the_second_opinion_gives_14_for_each_short_list() {
    short_lists(&mut None);
}
