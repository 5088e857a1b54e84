//! The proved services and the second opinion on many thousands of inputs: the same answer and the same bytes.
#![forbid(unsafe_code)]

mod batches;
mod cases;
mod forms;
mod guarded;
mod histories;
mod joined;
mod noticed;
mod outcome;
mod pages;
mod places;
mod readings;
mod spoiled;
mod tally;
mod texts;

use histories::Seen;
use nevolisca_bench::random::Random;
use tally::Tally;

/// The seed, unless the environment variable gives another.
const SEED: u64 = 20_261_115;
const SEED_VARIABLE: &str = "NEVOLISCA_SEED";

const READ_PAGES: usize = 60_000;
const EACH_BYTE: usize = 12;
const WRITE_PAGES: usize = 60_000;
const BATCHES: usize = 30_000;
const HISTORIES: usize = 1_500;
const READ_TEXTS: usize = 200_000;
const WRITE_TEXTS: usize = 40_000;

fn seed() -> u64 {
    let given = std::env::var(SEED_VARIABLE).ok();
    given.map_or(SEED, |text| text.parse().expect("the seed is a number"))
}

#[test]
fn the_two_opinions_agree() {
    let seed = seed();
    println!("\nanswers: seed {seed} (another by {SEED_VARIABLE})");
    let (mut random, mut tally) = (Random::new(seed), Tally::default());
    pages::read_pages(&mut random, &mut tally, READ_PAGES);
    for _ in 0..EACH_BYTE {
        pages::each_byte(&mut random, &mut tally);
    }
    pages::write_pages(&mut random, &mut tally, WRITE_PAGES);
    batches::batches(&mut random, &mut tally, BATCHES);
    places::pages(&mut random, &mut Some(&mut tally));
    places::batches(&mut random, &mut Some(&mut tally));
    joined::short_lists(&mut Some(&mut tally));
    forms::forms(&mut Some(&mut tally));
    let seen = histories::histories(&mut random, &mut Some(&mut tally), HISTORIES);
    batches::all_of_three(&mut tally);
    batches::all_of_four(&mut tally);
    texts::all_short_texts(&mut tally);
    texts::read_texts(&mut random, &mut tally, READ_TEXTS);
    texts::write_texts(&mut random, &mut tally, WRITE_TEXTS);
    tally.print();
    seen.iter().for_each(Seen::print);
    let mut faults = tally.faults();
    faults.extend(seen.iter().flat_map(Seen::faults));
    assert!(faults.is_empty(), "{faults:#?}");
}
