//! The table of the services: ours, the second opinion, and their ratio.
#![forbid(unsafe_code)]

use crate::answer::Answer;
use crate::joined::{self, Joined};
use crate::measure::{fastest, once, repeated, PASSES};
use crate::node;
use crate::second::{self, LONGEST, PAGE};
use crate::table::{ratio, time, Table};
use crate::workloads::{
    by_entries, doubled, no_conflicts, Ledger, Workload, FULL_BATCH, FULL_PAGE,
};
use std::hint::black_box;
use std::time::Duration;

/// Time for one row in one pass.
pub const ROW: Duration = Duration::from_millis(170);
/// A figure with all its digits.
const LONG_FIGURE: i64 = i64::MIN;
const SHORT_FIGURE: i64 = 68_400;

/// A row: what is done, ours and Rust's nanoseconds.
pub struct Row {
    pub name: String,
    pub ours: f64,
    pub rust: f64,
}

/// Measures two sides in turns.
fn row(
    name: impl Into<String>,
    mut ours: impl FnMut() -> f64,
    mut rust: impl FnMut() -> f64,
) -> Row {
    let best = fastest(ROW, &mut [&mut ours, &mut rust]);
    Row {
        name: name.into(),
        ours: best[0],
        rust: best[1],
    }
}

fn read_page(name: &str, page: &[u8]) -> Row {
    let mut transaction = node::Transaction::EMPTY;
    let ours = repeated(|| {
        let answer = node::read_page(black_box(page), transaction.parts_mut());
        black_box((&transaction, answer)).1.expect("a good page");
    });
    let rust = repeated(|| {
        let read = second::read_page(black_box(page));
        black_box(&read).as_ref().expect("a good page");
    });
    row(name, ours, rust)
}

fn write_page(name: &str, page: &[u8]) -> Row {
    let mut lent = node::Transaction::EMPTY;
    node::read_page(page, lent.parts_mut()).expect("a good page");
    let value = second::read_page(page).expect("a good page");
    let (mut batch, mut batch2) = (vec![0; PAGE], vec![0; PAGE]);
    let ours = repeated(|| {
        let answer = node::write_page(black_box(&mut batch), 0, black_box(&lent).parts());
        black_box(answer).expect("it can stand on a page");
    });
    let rust = repeated(|| {
        let answer = second::write_page(black_box(&mut batch2), 0, black_box(&value));
        black_box(answer).expect("it can stand on a page");
    });
    row(name, ours, rust)
}

/// The lists that planning and commit fill; commit has its own verdicts.
pub struct Filled {
    pub verdicts: Vec<u8>,
    pub order: Vec<u8>,
    pub out: Vec<u8>,
    pub passes: Vec<u8>,
}

impl Filled {
    fn new() -> Self {
        Filled {
            verdicts: vec![0; FULL_BATCH],
            order: vec![0; FULL_BATCH],
            out: vec![0; FULL_BATCH * PAGE],
            passes: vec![0; FULL_BATCH],
        }
    }
}

/// Our planner as a side; what it answers is asked for, so that nothing else is measured.
pub fn our_plan(workload: &Workload) -> impl FnMut() -> f64 + '_ {
    let mut filled = Filled::new();
    let Ledger {
        blocks,
        places,
        values,
        n,
    } = &workload.ledger;
    repeated(move || {
        let Filled {
            verdicts,
            order,
            out,
            ..
        } = black_box(&mut filled);
        let batch = black_box(&workload.batch[..]);
        let _ = black_box(node::plan(
            batch, blocks, places, values, *n, verdicts, order, out,
        ));
    })
}

/// The second opinion's planner as a side.
pub fn rust_plan(workload: &Workload) -> impl FnMut() -> f64 + '_ {
    let mut filled = Filled::new();
    let (state, n) = (workload.ledger.view(), workload.ledger.n);
    repeated(move || {
        let Filled {
            verdicts,
            order,
            out,
            ..
        } = black_box(&mut filled);
        let batch = black_box(&workload.batch[..]);
        let _ = black_box(second::plan(batch, state, n, verdicts, order, out));
    })
}

fn plan(name: &str, workload: &Workload) -> Row {
    row(name, our_plan(workload), rust_plan(workload))
}

/// Calls that change the state, as a side; it is put back before each time, outside the time taken.
pub fn changing<'a>(
    workload: &'a Workload,
    mut calls: impl FnMut(&[u8], &mut Ledger, &mut Filled) -> Answer + 'a,
) -> impl FnMut() -> f64 + 'a {
    let (mut after, mut filled) = (workload.ledger.clone(), Filled::new());
    move || {
        after.clone_from(&workload.ledger);
        let (after, filled) = black_box((&mut after, &mut filled));
        once(|| {
            let answer = calls(black_box(&workload.batch[..]), after, filled);
            black_box(answer).expect("a good batch");
        })
    }
}

/// Our commit of a batch.
pub fn our_commit(batch: &[u8], ledger: &mut Ledger, passes: &mut [u8]) -> Answer {
    let Ledger {
        blocks,
        places,
        values,
        n,
    } = ledger;
    node::commit(batch, blocks, places, values, *n, passes)
}

/// The second opinion's.
pub fn rust_commit(batch: &[u8], ledger: &mut Ledger, passes: &mut [u8]) -> Answer {
    let n = ledger.n;
    second::commit(batch, ledger.view_mut(), n, passes)
}

fn commit(name: &str, workload: &Workload) -> Row {
    let ours = changing(workload, |batch, ledger, filled| {
        our_commit(batch, ledger, &mut filled.passes)
    });
    let rust = changing(workload, |batch, ledger, filled| {
        rust_commit(batch, ledger, &mut filled.passes)
    });
    row(name, ours, rust)
}

fn read_tonnage(name: &str, kilograms: i64) -> Row {
    let mut buffer = [0; LONGEST];
    let len = second::write_tonnage(&mut buffer, kilograms).expect("it fits") as usize;
    let text = &buffer[..len];
    let mut figure = 0;
    let ours = repeated(|| {
        let answer = node::read_tonnage(black_box(text), &mut figure);
        black_box((answer, figure)).0.expect("of the form");
    });
    let rust = repeated(|| {
        black_box(second::read_tonnage(black_box(text))).expect("of the form");
    });
    row(name, ours, rust)
}

fn write_tonnage(name: &str, kilograms: i64) -> Row {
    let (mut text, mut text2) = ([0; LONGEST], [0; LONGEST]);
    let ours = repeated(|| {
        let answer = node::write_tonnage(black_box(&mut text), black_box(kilograms));
        black_box(answer).expect("it fits");
    });
    let rust = repeated(|| {
        let answer = second::write_tonnage(black_box(&mut text2), black_box(kilograms));
        black_box(answer).expect("it fits");
    });
    row(name, ours, rust)
}

/// The two floors of a full batch: 32 KiB copied, and summed as 64-bit words or as single bytes.
pub struct Floors {
    pub words: f64,
    pub bytes: f64,
}

fn floors(batch: &[u8]) -> Floors {
    let (mut copy, mut copy2) = (vec![0; batch.len()], vec![0; batch.len()]);
    let word = |bytes: &[u8]| u64::from_le_bytes(bytes.try_into().expect("eight bytes"));
    let mut words = repeated(|| {
        let batch = black_box(batch);
        black_box(&mut copy).copy_from_slice(batch);
        black_box(batch.chunks_exact(8).map(word).fold(0, u64::wrapping_add));
    });
    let mut bytes = repeated(|| {
        let batch = black_box(batch);
        black_box(&mut copy2).copy_from_slice(batch);
        black_box(batch.iter().map(|&byte| u32::from(byte)).sum::<u32>());
    });
    let best = fastest(ROW, &mut [&mut words, &mut bytes]);
    Floors {
        words: best[0],
        bytes: best[1],
    }
}

/// All rows, and the floors.
pub struct Services {
    singles: Vec<Row>,
    gate: Row,
    batches: [Row; 4],
    joined: [Joined; 2],
    pub floors: Floors,
}

/// Measures every service in several passes; the fastest of each row counts.
pub fn measure() -> Services {
    let mut best = pass();
    for _ in 1..PASSES {
        best.improve(&pass());
    }
    best
}

/// Measures every service once.
fn pass() -> Services {
    let (full, small) = (no_conflicts(), by_entries(1));
    let (full_page, small_page) = (&full.batch[..PAGE], &small.batch[..PAGE]);
    let n = FULL_PAGE;
    let singles = vec![
        read_page(&format!("read a page, {n} reads and {n} writes"), full_page),
        read_page("read a page, 1 read and 1 write", small_page),
        write_page(
            &format!("write a page, {n} reads and {n} writes"),
            full_page,
        ),
        write_page("write a page, 1 read and 1 write", small_page),
        read_tonnage("read tonnage, 6 bytes", SHORT_FIGURE),
        read_tonnage("read tonnage, 21 bytes", LONG_FIGURE),
        write_tonnage("write tonnage, 6 bytes", SHORT_FIGURE),
        write_tonnage("write tonnage, 21 bytes", LONG_FIGURE),
    ];
    Services {
        singles,
        gate: plan("gate: plan, refused with 15 at page 63", &doubled(&full)),
        batches: [
            plan("plan 64 full pages", &full),
            commit("commit 64 full pages", &full),
            plan("plan 64 pages of 1 read and 1 write", &small),
            commit("commit 64 pages of 1 read and 1 write", &small),
        ],
        joined: [
            joined::measure("64 full pages", &full),
            joined::measure("64 pages of 1 read and 1 write", &small),
        ],
        floors: floors(&full.batch),
    }
}

impl Row {
    /// Takes over what another pass did faster.
    pub fn improve(&mut self, other: &Row) {
        self.ours = self.ours.min(other.ours);
        self.rust = self.rust.min(other.rust);
    }
}

impl Services {
    /// Takes over what another pass did faster.
    fn improve(&mut self, other: &Services) {
        let singles = self.singles.iter_mut().zip(&other.singles);
        let batches = self.batches.iter_mut().zip(&other.batches);
        singles
            .chain(batches)
            .for_each(|(row, other)| row.improve(other));
        self.gate.improve(&other.gate);
        let joined = self.joined.iter_mut().zip(&other.joined);
        joined.for_each(|(one, other)| one.improve(other));
        self.floors.words = self.floors.words.min(other.floors.words);
        self.floors.bytes = self.floors.bytes.min(other.floors.bytes);
    }

    /// Reading and writing a page, each full and small.
    pub fn pages(&self) -> &[Row] {
        &self.singles[..4]
    }

    /// Planning and committing a full batch without conflicts, then one of small pages.
    pub fn batches(&self) -> &[Row] {
        &self.batches
    }

    /// The joined call of a full batch without conflicts, then of one of small pages.
    pub fn joined(&self) -> &[Joined] {
        &self.joined
    }

    /// All rows.
    pub fn rows(&self) -> impl Iterator<Item = &Row> {
        self.singles.iter().chain(self.on_batches())
    }

    fn on_batches(&self) -> impl Iterator<Item = &Row> {
        let joined = self.joined.iter().map(|one| &one.at_once);
        std::iter::once(&self.gate)
            .chain(&self.batches)
            .chain(joined)
    }

    /// Every service beside Rust.
    pub fn table(&self) -> Table {
        let mut table = Table::new("Services", &["What", "ours", "Rust", "ours / Rust"]);
        for row in self.rows() {
            let cells = [time(row.ours), time(row.rust), ratio(row.ours / row.rust)];
            table
                .rows
                .push([vec![row.name.clone()], cells.to_vec()].concat());
        }
        table
    }

    /// What a plan takes by page and by entry.
    pub fn by_page(&self) -> Table {
        let head = [
            "Plan of 64 pages",
            "a page",
            "an entry",
            "Rust: a page",
            "an entry",
        ];
        let mut table = Table::new("A plan by page and by entry", &head);
        let [full, _, small, _] = &self.batches;
        for (what, row, entries) in [
            ("full", full, 2 * FULL_PAGE),
            ("1 read and 1 write", small, 2),
        ] {
            let page = |time_of_all: f64| time_of_all / FULL_BATCH as f64;
            let entry = |time_of_all: f64| page(time_of_all) / entries as f64;
            let cells = [
                page(row.ours),
                entry(row.ours),
                page(row.rust),
                entry(row.rust),
            ]
            .map(time);
            table
                .rows
                .push([vec![what.to_string()], cells.to_vec()].concat());
        }
        table
    }

    /// Batches beside the floors.
    pub fn against_floor(&self) -> Table {
        let head = ["What", "time", "/ floor of words", "/ floor of bytes"];
        let mut table = Table::new("A batch against the floor", &head);
        let floors = &self.floors;
        let mut push = |name: String, nanoseconds: f64| {
            let cells = [nanoseconds / floors.words, nanoseconds / floors.bytes].map(ratio);
            table
                .rows
                .push([vec![name, time(nanoseconds)], cells.to_vec()].concat());
        };
        push(
            "floor of words: copy 32 KiB, sum its 4096 words".to_string(),
            floors.words,
        );
        push(
            "floor of bytes: copy 32 KiB, sum its 32768 bytes".to_string(),
            floors.bytes,
        );
        for row in self.on_batches() {
            push(format!("{}, ours", row.name), row.ours);
            push(format!("{}, Rust", row.name), row.rust);
        }
        table
    }
}
