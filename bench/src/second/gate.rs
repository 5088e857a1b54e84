//! The gate that plan and commit share: 11 to 14, the pages, 15 and 16.

use super::offset;
use super::page::{Page, PAGE};
use super::reason::Reason;
use super::state::State;
use crate::answer::Refusal;

/// The most pages of a batch.
const MOST_PAGES: usize = 64;

/// The good pages of a batch over a state under n; `lent_enough` says for m pages whether 14 is to be given.
pub fn gate<'a>(
    batch: &'a [u8],
    state: State<'_>,
    n: u32,
    lent_enough: impl Fn(usize) -> bool,
) -> Result<Vec<Page<'a>>, Refusal> {
    if batch.len() > MOST_PAGES * PAGE || batch.len() % PAGE != 0 {
        return Err(Reason::BatchLength.at(0));
    }
    state.check(n)?;
    if !lent_enough(batch.len() / PAGE) {
        return Err(Reason::LentTooShort.at(0));
    }
    let pages = check_pages(batch)?;
    check_tickets(&pages)?;
    match pages.iter().position(|page| !page.fits(state.keys())) {
        Some(index) => Err(Reason::KeyBeyondState.at(index)),
        None => Ok(pages),
    }
}

/// Every page checked; the lowest bad one with its first number of 2 to 10, at the fault's offset in the batch.
fn check_pages(batch: &[u8]) -> Result<Vec<Page<'_>>, Refusal> {
    let place = |index, bytes, reason| index * PAGE + offset::on_page(reason, bytes);
    let pages = batch.chunks_exact(PAGE).enumerate();
    pages
        .map(|(index, bytes)| {
            Page::check(bytes).map_err(|reason| reason.at(place(index, bytes, reason)))
        })
        .collect()
}

/// Refuses with 15 the lowest page whose ticket stands on an earlier one.
fn check_tickets(pages: &[Page<'_>]) -> Result<(), Refusal> {
    let tickets: Vec<u32> = pages.iter().map(|page| page.ticket).collect();
    for (index, ticket) in tickets.iter().enumerate() {
        if tickets[..index].contains(ticket) {
            return Err(Reason::TicketTwice.at(index));
        }
    }
    Ok(())
}
