//! The joined call: a batch is planned and what is kept is committed, from where the pages lie.

use super::commit::write_entries;
use super::gate::gate;
use super::plan::{current, decide};
use super::state::StateMut;
use crate::answer::Answer;

/// Plans a batch and commits the kept pages in the order's turn: fills verdicts, order and state, and gives the kept
/// count. A page's place is its place in the order, since that is where it would lie in the out batch.
pub fn plan_and_commit(
    batch: &[u8],
    mut state: StateMut<'_>,
    n: u32,
    verdicts: &mut [u8],
    order: &mut [u8],
) -> Answer {
    let pages = gate(batch, state.view(), n, |m| {
        verdicts.len() >= m && order.len() >= m
    })?;
    let schedule = decide(&pages, state.view(), verdicts);
    for (place, (slot, &index)) in order.iter_mut().zip(&schedule).enumerate() {
        let page = &pages[index];
        // Each reader of a key stands before its other writers, so no read has changed by its page's turn.
        debug_assert!(current(page, state.view()), "page {index} passes in turn");
        *slot = index as u8;
        write_entries(page, &mut state, n, place);
    }
    Ok(schedule.len() as u32)
}
