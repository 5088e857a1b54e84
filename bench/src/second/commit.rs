//! The version check and commit.

use super::gate::gate;
use super::page::Page;
use super::plan::current;
use super::state::{StateMut, Version};
use crate::answer::Answer;

/// The verdicts of commit.
const PASSES: u8 = 0;
const FAILS: u8 = 3;

/// Commits a batch: fills the state and verdicts, and gives the number of passing pages.
pub fn commit(batch: &[u8], mut state: StateMut<'_>, n: u32, verdicts: &mut [u8]) -> Answer {
    let pages = gate(batch, state.view(), n, |m| verdicts.len() >= m)?;
    let mut passing = 0;
    for (index, (page, verdict)) in pages.iter().zip(verdicts).enumerate() {
        if !current(page, state.view()) {
            *verdict = FAILS;
            continue;
        }
        *verdict = PASSES;
        passing += 1;
        write_entries(page, &mut state, n, index);
    }
    Ok(passing)
}

/// What a passing page does to the state under n, from its place: puts leave value and version, deletes value 0 and a
/// deleted version.
/// Inlined: as a call for each page it makes the commit of full pages about 8 % slower.
#[inline(always)]
pub(super) fn write_entries(page: &Page<'_>, state: &mut StateMut<'_>, n: u32, place: usize) {
    let (block, place) = (n, place as u16);
    let (present, deleted) = (Version { block, place }, Version::deleted(block, place));
    for write in page.writes() {
        if write.deletes() {
            state.set(write.key, deleted, 0);
        } else {
            state.set(write.key, present, write.value);
        }
    }
}
