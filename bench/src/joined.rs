//! The joined call beside the two calls that it stands for, ours and Rust's, all in turns.
#![forbid(unsafe_code)]

use crate::answer::Answer;
use crate::measure::{fastest, Side};
use crate::node;
use crate::planning::kept;
use crate::second::{self, PAGE};
use crate::services::{changing, our_commit, rust_commit, Filled, Row, ROW};
use crate::table::{ratio, time, Table};
use crate::workloads::{Ledger, Workload};

/// What was measured of a batch.
pub struct Joined {
    /// The batch in words, and how many of its pages are kept.
    what: String,
    kept: u32,
    /// The joined call.
    pub at_once: Row,
    /// Plan and then commit, ours and Rust's nanoseconds.
    our_two: f64,
    rust_two: f64,
}

/// Our joined call.
fn our_joined(batch: &[u8], ledger: &mut Ledger, filled: &mut Filled) -> Answer {
    let Ledger {
        blocks,
        places,
        values,
        n,
    } = ledger;
    let (verdicts, order) = (&mut filled.verdicts, &mut filled.order);
    node::plan_and_commit(batch, blocks, places, values, *n, verdicts, order)
}

/// The second opinion's.
fn rust_joined(batch: &[u8], ledger: &mut Ledger, filled: &mut Filled) -> Answer {
    let (verdicts, order) = (&mut filled.verdicts, &mut filled.order);
    let n = ledger.n;
    second::plan_and_commit(batch, ledger.view_mut(), n, verdicts, order)
}

/// Our plan, then our commit of what it kept.
fn our_two(batch: &[u8], ledger: &mut Ledger, filled: &mut Filled) -> Answer {
    let Ledger {
        blocks,
        places,
        values,
        n,
    } = &*ledger;
    let (verdicts, order, out) = (&mut filled.verdicts, &mut filled.order, &mut filled.out);
    let kept = node::plan(batch, blocks, places, values, *n, verdicts, order, out)?;
    our_commit(&out[..kept as usize * PAGE], ledger, &mut filled.passes)
}

/// The second opinion's, likewise.
fn rust_two(batch: &[u8], ledger: &mut Ledger, filled: &mut Filled) -> Answer {
    let (verdicts, order, out) = (&mut filled.verdicts, &mut filled.order, &mut filled.out);
    let kept = second::plan(batch, ledger.view(), ledger.n, verdicts, order, out)?;
    rust_commit(&out[..kept as usize * PAGE], ledger, &mut filled.passes)
}

/// Measures the four sides in turns; each begins with the same state.
pub fn measure(what: &str, workload: &Workload) -> Joined {
    let (mut ours, mut rust) = (
        changing(workload, our_joined),
        changing(workload, rust_joined),
    );
    let (mut our_two, mut rust_two) = (changing(workload, our_two), changing(workload, rust_two));
    let sides: &mut [Side<'_>] = &mut [&mut ours, &mut rust, &mut our_two, &mut rust_two];
    let best = fastest(2 * ROW, sides);
    Joined {
        what: what.to_string(),
        kept: kept(workload),
        at_once: Row {
            name: format!("plan and commit {what} at once"),
            ours: best[0],
            rust: best[1],
        },
        our_two: best[2],
        rust_two: best[3],
    }
}

impl Joined {
    /// Takes over what another pass did faster.
    pub fn improve(&mut self, other: &Joined) {
        self.at_once.improve(&other.at_once);
        self.our_two = self.our_two.min(other.our_two);
        self.rust_two = self.rust_two.min(other.rust_two);
    }

    /// The part of our own two calls' time, and of Rust's.
    pub fn parts(&self) -> [f64; 2] {
        [self.our_two, self.rust_two].map(|two| self.at_once.ours / two)
    }
}

/// The joined call beside the two calls.
pub fn table(all: &[Joined]) -> Table {
    let head = [
        "Plan and commit",
        "kept",
        "at once",
        "in two calls",
        "at once / two calls",
        "Rust: at once",
        "in two calls",
        "ours at once / Rust's two",
    ];
    let mut table = Table::new("The joined call beside the two calls", &head);
    for one in all {
        let [of_ours, of_rust] = one.parts().map(ratio);
        table.rows.push(vec![
            one.what.clone(),
            one.kept.to_string(),
            time(one.at_once.ours),
            time(one.our_two),
            of_ours,
            time(one.at_once.rust),
            time(one.rust_two),
            of_rust,
        ]);
    }
    table
}
