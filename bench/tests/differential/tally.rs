//! Counts of every answer by service, number and place: each that the documents name must occur, and no other may.

use crate::outcome::{compare, Case, Service};
use crate::places::{offsets, AT_A_BYTE, MOST_PAGES};
use crate::readings::Readings;
use nevolisca_bench::answer::Answer;
use nevolisca_bench::second::PAGE;
use std::collections::BTreeSet;
use std::ops::RangeInclusive;

/// The highest refusal number, and that of a state's entry.
const LAST: usize = 20;
const STATE_ENTRY: u32 = 13;

const SERVICES: [(Service, &str); 7] = [
    (Service::ReadPage, "read page"),
    (Service::WritePage, "write page"),
    (Service::Plan, "plan"),
    (Service::Commit, "commit"),
    (Service::PlanAndCommit, "plan and commit"),
    (Service::ReadTonnage, "read tonnage"),
    (Service::WriteTonnage, "write tonnage"),
];

/// The services that take a batch.
fn on_batches(service: Service) -> bool {
    use Service::{Commit, Plan, PlanAndCommit};
    matches!(service, Plan | Commit | PlanAndCommit)
}

/// The refusal numbers that the documents let a service give.
fn named(service: Service) -> &'static [RangeInclusive<usize>] {
    match service {
        Service::ReadPage => &[1..=10],
        Service::WritePage => &[4..=9, 17..=17],
        Service::Plan | Service::Commit | Service::PlanAndCommit => &[2..=16],
        Service::ReadTonnage => &[18..=19],
        Service::WriteTonnage => &[20..=20],
    }
}

/// The verdicts that a service gives, with their words.
fn verdicts(service: Service) -> &'static [(usize, &'static str)] {
    match service {
        Service::Plan | Service::PlanAndCommit => &[(0, "kept"), (1, "stale"), (2, "cycle")],
        Service::Commit => &[(0, "passes"), (3, "fails")],
        _ => &[],
    }
}

/// How often each service gave each number, 0 for an answer that is no refusal, and at which places.
#[derive(Default)]
pub struct Tally {
    counts: [[u64; LAST + 1]; SERVICES.len()],
    places: [[BTreeSet<usize>; LAST + 1]; SERVICES.len()],
    verdicts: [[u64; 4]; SERVICES.len()],
    readings: [Readings; SERVICES.len()],
}

impl Tally {
    /// Asks both opinions, compares them, and counts the answer.
    pub fn run<C: Case>(&mut self, case: &C) {
        let (before, node, second) = (case.lent(), case.by_node(), case.by_second());
        let two_calls = case.by_two_calls().map(|other| ("the two calls", other));
        for (name, other) in std::iter::once(("the second opinion", second)).chain(two_calls) {
            if let Err(difference) = compare(&before, &node, &other) {
                panic!("{:?} beside {name}: {difference}\n{case:?}", C::SERVICE);
            }
        }
        let row = C::SERVICE as usize;
        match node.answer {
            Ok(_) => {
                self.counts[row][0] += 1;
                self.count_verdicts(row, &node.lent);
            }
            Err(refusal) => {
                let number = refusal.number as usize;
                self.counts[row][number] += 1;
                self.places[row][number].insert(refusal.place as usize);
            }
        }
        self.count_readings(case, node.answer);
    }

    /// Counts the reads of a batch that is taken, or the entry for which a state is refused.
    fn count_readings<C: Case>(&mut self, case: &C, answer: Answer) {
        let readings = &mut self.readings[C::SERVICE as usize];
        match (case.on_state(), answer) {
            (Some((batch, state)), Ok(_)) => readings.count_reads(batch, state),
            (Some((_, state)), Err(refusal)) if refusal.number == STATE_ENTRY => {
                readings.count_entry(state, refusal.place as usize);
            }
            _ => {}
        }
    }

    fn count_verdicts(&mut self, row: usize, lent: &crate::outcome::Lent) {
        let list = |name| lent.iter().find(|(other, _)| *other == name);
        let (Some((_, batch)), Some((_, verdicts))) = (list("batch"), list("verdicts")) else {
            return;
        };
        for &verdict in &verdicts[..batch.len() / PAGE] {
            self.verdicts[row][usize::from(verdict)] += 1;
        }
    }

    /// How often a service gave each of its verdicts, by the verdict's word.
    fn verdicts_of(&self, service: Service) -> impl Iterator<Item = (&'static str, u64)> {
        let row = self.verdicts[service as usize];
        let verdicts = verdicts(service).iter();
        verdicts.map(move |&(verdict, word)| (word, row[verdict]))
    }

    /// Prints the answers of each service, and the verdicts and readings of those on batches, each line with the same
    /// first word.
    pub fn print(&self) {
        for (service, name) in SERVICES {
            let row = &self.counts[service as usize];
            let numbers = named(service).iter().cloned().flatten();
            let counts: Vec<String> = numbers
                .map(|number| format!("{number}: {}", row[number]))
                .collect();
            println!("answers: {name:<15} good {}, {}", row[0], counts.join(", "));
        }
        for (service, name) in SERVICES.into_iter().filter(|one| on_batches(one.0)) {
            let counts = self.verdicts_of(service);
            let counts = counts.map(|(word, count)| format!("{word} {count}"));
            let counts: Vec<String> = counts.collect();
            println!("answers: verdicts of {name}: {}", counts.join(", "));
            let [reads, entries] = self.readings[service as usize].lines();
            println!("answers: reads in {name}: {reads}");
            println!("answers: deleted entries refused by {name}: {entries}");
        }
    }

    /// Whether a number of 2 to 10 occurred at each offset that it can have and at no other, of a batch on each page.
    fn every_place(&self, service: Service, number: usize) -> bool {
        let places = &self.places[service as usize][number];
        let on_page: BTreeSet<usize> = places.iter().map(|place| place % PAGE).collect();
        let pages: BTreeSet<usize> = places.iter().map(|place| place / PAGE).collect();
        let most = if on_batches(service) { MOST_PAGES } else { 1 };
        on_page == offsets(number) && pages.into_iter().eq(0..most)
    }

    /// What is missing or too much, in words.
    pub fn faults(&self) -> Vec<String> {
        let mut faults = Vec::new();
        for (service, name) in SERVICES {
            for (number, &count) in self.counts[service as usize].iter().enumerate() {
                let mut ranges = named(service).iter();
                let may = number == 0 || ranges.any(|range| range.contains(&number));
                if may != (count > 0) {
                    faults.push(format!("{name}: number {number} occurred {count} times"));
                }
            }
        }
        for (service, name) in SERVICES {
            for number in AT_A_BYTE.filter(|&number| self.counts[service as usize][number] > 0) {
                if !self.every_place(service, number) {
                    faults.push(format!("{name}: number {number} not at each of its places"));
                }
            }
        }
        for (service, name) in SERVICES {
            for (word, _) in self.verdicts_of(service).filter(|(_, count)| *count == 0) {
                faults.push(format!("{name}: verdict {word} never occurred"));
            }
        }
        for (service, name) in SERVICES.into_iter().filter(|one| on_batches(one.0)) {
            let readings = self.readings[service as usize].faults();
            faults.extend(readings.into_iter().map(|fault| format!("{name}: {fault}")));
        }
        faults
    }
}
