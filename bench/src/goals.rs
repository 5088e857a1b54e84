//! Where the measured numbers stand against the goals.
#![forbid(unsafe_code)]

use crate::planning::Measured;
use crate::services::{Row, Services};
use crate::table::{ratio, Table};

/// At most this part of Rust's time: reading a page, full and small, and writing one.
const PAGES: [f64; 4] = [0.30, 0.20, 0.70, 0.45];
/// The same for plan and commit of 64 full pages, and of 64 small ones.
const BATCHES: [f64; 4] = [0.34, 0.34, 0.17, 0.11];
/// At most this part of our own plan and commit together, and of Rust's: the joined call on 64 full pages.
const JOINED: [(&str, f64); 2] = [("our two calls", 0.80), ("Rust's two calls", 0.40)];
/// No row slower than Rust.
const EQUAL: f64 = 1.0;

/// The goals and where we stand.
pub fn table(services: &Services, planned: &[Measured]) -> Table {
    let head = [
        "ours / Rust, where nothing else is named",
        "goal: at most",
        "measured",
        "met",
    ];
    let mut table = Table::new("Goals", &head);
    let mut push = |what: &str, goal: f64, measured: f64| {
        let met = if measured <= goal { "yes" } else { "no" };
        let cells = [ratio(goal), ratio(measured), met.to_string()];
        table
            .rows
            .push([vec![what.to_string()], cells.to_vec()].concat());
    };
    let pages = services.pages().iter().zip(PAGES);
    let batches = services.batches().iter().zip(BATCHES);
    for (row, goal) in pages.chain(batches) {
        push(&row.name, goal, part(row));
    }
    let full = &services.joined()[0];
    for ((beside, goal), measured) in JOINED.into_iter().zip(full.parts()) {
        push(&format!("{} / {beside}", full.at_once.name), goal, measured);
    }
    let (name, worst) = slowest(services, planned);
    push(&format!("the slowest row: {name}"), EQUAL, worst);
    table
}

fn part(row: &Row) -> f64 {
    row.ours / row.rust
}

/// The row, workloads included, that is slowest beside Rust, with its ratio.
fn slowest<'a>(services: &'a Services, planned: &'a [Measured]) -> (&'a str, f64) {
    let rows = services.rows().map(|row| (row.name.as_str(), part(row)));
    let planned = planned
        .iter()
        .map(|one| (one.name.as_str(), one.ours / one.rust));
    let slowest = rows
        .chain(planned)
        .max_by(|one, other| one.1.total_cmp(&other.1));
    slowest.expect("there are rows")
}
