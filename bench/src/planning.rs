//! The tables of planning: workloads beside the second opinion and the peer, and growth.
#![forbid(unsafe_code)]

use crate::measure::{fastest, once, Side, PASSES};
use crate::node;
use crate::peer;
use crate::second::PAGE;
use crate::services::{our_plan, rust_plan};
use crate::table::{ratio, time, Table};
use crate::workloads::{self, doubled, Workload, FULL_BATCH};
use std::hint::black_box;
use std::time::Duration;

/// Time in one pass for the sides of a workload, for the peer, and for a step of growth.
const WORKLOAD: Duration = Duration::from_millis(200);
const PEER: Duration = Duration::from_millis(80);
const STEP: Duration = Duration::from_millis(80);

/// What was measured of a workload.
pub struct Measured {
    pub name: String,
    pub ours: f64,
    pub rust: f64,
    pub peer: f64,
    /// The gate alone, ours and Rust's; the peer uses Rust's.
    pub our_gate: f64,
    pub rust_gate: f64,
    pub kept: u32,
    pub peer_kept: usize,
    pub cap_hit: bool,
}

/// Measures all workloads in several passes; the fastest of each counts.
pub fn measure() -> Vec<Measured> {
    let workloads = workloads::all();
    let pass = || -> Vec<Measured> { workloads.iter().map(measure_one).collect() };
    let mut best = pass();
    for _ in 1..PASSES {
        best.iter_mut()
            .zip(&pass())
            .for_each(|(one, other)| one.improve(other));
    }
    best
}

impl Measured {
    /// Takes over what another pass did faster.
    fn improve(&mut self, other: &Measured) {
        self.ours = self.ours.min(other.ours);
        self.rust = self.rust.min(other.rust);
        self.peer = self.peer.min(other.peer);
        self.our_gate = self.our_gate.min(other.our_gate);
        self.rust_gate = self.rust_gate.min(other.rust_gate);
    }
}

fn measure_one(workload: &Workload) -> Measured {
    let refused = doubled(workload);
    let (mut ours, mut rust) = (our_plan(workload), rust_plan(workload));
    let (mut our_gate, mut rust_gate) = (our_plan(&refused), rust_plan(&refused));
    let sides: &mut [Side<'_>] = &mut [&mut ours, &mut rust, &mut our_gate, &mut rust_gate];
    let best = fastest(WORKLOAD, sides);
    let mut out = vec![0; workload.batch.len()];
    let mut plan = || {
        let (state, n) = (workload.ledger.view(), workload.ledger.n);
        peer::plan(black_box(&workload.batch), state, n, &mut out).expect("a good batch")
    };
    let reordered = plan();
    let mut peer = || once(|| drop(black_box(plan())));
    Measured {
        name: workload.name.clone(),
        ours: best[0],
        rust: best[1],
        peer: fastest(PEER, &mut [&mut peer])[0],
        our_gate: best[2],
        rust_gate: best[3],
        kept: kept(workload),
        peer_kept: reordered.order.len(),
        cap_hit: reordered.cap_hit,
    }
}

/// The kept count of our plan.
pub fn kept(workload: &Workload) -> u32 {
    let (mut verdicts, mut order) = ([0; FULL_BATCH], [0; FULL_BATCH]);
    let mut out = vec![0; FULL_BATCH * PAGE];
    let (state, n) = (workload.ledger.view(), workload.ledger.n);
    let (blocks, places, values) = (state.blocks, state.places, state.values);
    let batch = &workload.batch;
    let answer = node::plan(
        batch,
        blocks,
        places,
        values,
        n,
        &mut verdicts,
        &mut order,
        &mut out,
    );
    answer.expect("a good batch")
}

/// The table of the workloads.
pub fn table(all: &[Measured]) -> Table {
    let head = [
        "Workload",
        "ours",
        "Rust",
        "ours / Rust",
        "peer",
        "peer / ours",
        "kept",
        "peer keeps",
        "cap hit",
    ];
    let mut table = Table::new("Planning 64 full pages", &head);
    for one in all {
        table.rows.push(vec![
            one.name.clone(),
            time(one.ours),
            time(one.rust),
            ratio(one.ours / one.rust),
            time(one.peer),
            ratio(one.peer / one.ours),
            one.kept.to_string(),
            one.peer_kept.to_string(),
            if one.cap_hit { "yes" } else { "no" }.to_string(),
        ]);
    }
    table
}

/// The table of what planning takes beyond the gate: differences of two measured times.
pub fn beyond_the_gate(all: &[Measured]) -> Table {
    let head = [
        "Workload",
        "ours",
        "Rust",
        "ours / Rust",
        "peer",
        "peer / ours",
    ];
    let title = "The same beyond the gate (time of the whole less time of the gate)";
    let mut table = Table::new(title, &head);
    for one in all {
        let (ours, rust) = (one.ours - one.our_gate, one.rust - one.rust_gate);
        let peer = one.peer - one.rust_gate;
        table.rows.push(vec![
            one.name.clone(),
            time(ours),
            time(rust),
            ratio(ours / rust),
            time(peer),
            ratio(peer / ours),
        ]);
    }
    table
}

/// The three tables of growth.
pub fn growth() -> Vec<Table> {
    let pages = [1, 2, 4, 8, 16, 32, 64].map(workloads::by_pages);
    let entries = [0, 1, 2, 4, 8, 16, 25].map(workloads::by_entries);
    let hot = [0, 1, 2, 4, 8, 16, 25].map(workloads::by_hot);
    vec![
        steps("Planning by pages", "pages", &pages),
        steps(
            "Planning by reads and writes of each page",
            "reads, writes",
            &entries,
        ),
        steps("Planning by conflicts", "hot reads, writes", &hot),
    ]
}

fn steps(title: &str, what: &str, steps: &[Workload]) -> Table {
    let mut best = vec![[f64::INFINITY; 2]; steps.len()];
    for _ in 0..PASSES {
        for (step, best) in steps.iter().zip(&mut best) {
            let (mut ours, mut rust) = (our_plan(step), rust_plan(step));
            let pass = fastest(STEP, &mut [&mut ours, &mut rust]);
            *best = [best[0].min(pass[0]), best[1].min(pass[1])];
        }
    }
    let mut table = Table::new(title, &[what, "ours", "Rust", "ours / Rust", "kept"]);
    for (step, [ours, rust]) in steps.iter().zip(best) {
        table.rows.push(vec![
            step.name.clone(),
            time(ours),
            time(rust),
            ratio(ours / rust),
            kept(step).to_string(),
        ]);
    }
    table
}
