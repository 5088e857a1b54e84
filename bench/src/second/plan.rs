//! Planning: who is current, who must stand before whom, who is kept, and in which order.

use super::gate::gate;
use super::page::{Page, PAGE};
use super::state::State;
use crate::answer::Answer;

/// The verdicts of planning.
pub const KEPT: u8 = 0;
const STALE: u8 = 1;
const CYCLE: u8 = 2;

/// Whether every read names its key's version in the state.
pub fn current(page: &Page<'_>, state: State<'_>) -> bool {
    page.reads()
        .all(|read| read.version == state.version(read.key))
}

/// Plans a batch: fills verdicts, order and out, and gives the kept count.
pub fn plan(
    batch: &[u8],
    state: State<'_>,
    n: u32,
    verdicts: &mut [u8],
    order: &mut [u8],
    out: &mut [u8],
) -> Answer {
    let pages = gate(batch, state, n, |m| {
        verdicts.len() >= m && order.len() >= m && out.len() >= m * PAGE
    })?;
    let schedule = decide(&pages, state, verdicts);
    for ((slot, place), &index) in order
        .iter_mut()
        .zip(out.chunks_exact_mut(PAGE))
        .zip(&schedule)
    {
        *slot = index as u8;
        place.copy_from_slice(pages[index].bytes);
    }
    Ok(schedule.len() as u32)
}

/// Rules 1 to 4 on the pages of a batch: fills the verdicts, and gives the indexes of the kept pages in schedule order.
pub(super) fn decide(pages: &[Page<'_>], state: State<'_>, verdicts: &mut [u8]) -> Vec<usize> {
    verdicts[..pages.len()].fill(STALE);
    let candidates = by_ticket(pages, state);
    let demands = Demands::among(pages, &candidates, state.keys());
    let kept = demands.kept();
    for (rank, &index) in candidates.iter().enumerate() {
        verdicts[index] = if kept >> rank & 1 == 1 { KEPT } else { CYCLE };
    }
    let schedule = demands.schedule(kept).into_iter();
    schedule.map(|rank| candidates[rank]).collect()
}

/// The indexes of the current pages, by rising ticket.
fn by_ticket(pages: &[Page<'_>], state: State<'_>) -> Vec<usize> {
    let mut candidates: Vec<usize> = (0..pages.len())
        .filter(|&index| current(&pages[index], state))
        .collect();
    candidates.sort_unstable_by_key(|&index| pages[index].ticket);
    candidates
}

/// Who must stand before and after whom among the current transactions. Sets of them are masks: bit i is the one
/// with the i-th lowest ticket.
struct Demands {
    before: Vec<u64>,
    after: Vec<u64>,
}

impl Demands {
    /// A reader of a key stands before each other writer of it.
    fn among(pages: &[Page<'_>], candidates: &[usize], keys: usize) -> Self {
        let mut readers = vec![0u64; keys];
        let mut writers = vec![0u64; keys];
        for (rank, &index) in candidates.iter().enumerate() {
            for read in pages[index].reads() {
                readers[usize::from(read.key)] |= 1 << rank;
            }
            for write in pages[index].writes() {
                writers[usize::from(write.key)] |= 1 << rank;
            }
        }
        let (mut before, mut after) = (Vec::new(), Vec::new());
        for (rank, &index) in candidates.iter().enumerate() {
            let (page, others) = (&pages[index], !(1u64 << rank));
            let all_readers = page.writes().map(|write| readers[usize::from(write.key)]);
            let all_writers = page.reads().map(|read| writers[usize::from(read.key)]);
            before.push(all_readers.fold(0, |all, some| all | some) & others);
            after.push(all_writers.fold(0, |all, some| all | some) & others);
        }
        Demands { before, after }
    }

    /// In rising ticket order, each one that closes no cycle with those kept so far.
    fn kept(&self) -> u64 {
        (0..self.before.len()).fold(0, |kept, rank| {
            if self.closes_cycle(rank, kept) {
                kept
            } else {
                kept | 1 << rank
            }
        })
    }

    /// Whether a chain of demands leads from a transaction through kept ones back to it.
    fn closes_cycle(&self, rank: usize, kept: u64) -> bool {
        let goal = self.before[rank] & kept;
        let mut reached = self.after[rank] & kept;
        let mut open = reached;
        while open != 0 {
            if open & goal != 0 {
                return true;
            }
            let next = open.trailing_zeros() as usize;
            let found = self.after[next] & kept & !reached;
            reached |= found;
            open = open & (open - 1) | found;
        }
        false
    }

    /// Again and again the lowest ticket that no other unplaced one must stand before.
    fn schedule(&self, kept: u64) -> Vec<usize> {
        let mut unplaced = kept;
        let mut schedule = Vec::with_capacity(kept.count_ones() as usize);
        while unplaced != 0 {
            let next = members(unplaced)
                .find(|&rank| self.before[rank] & unplaced == 0)
                .expect("the kept have no cycle");
            unplaced &= !(1 << next);
            schedule.push(next);
        }
        schedule
    }
}

/// The members of a set, lowest first.
fn members(mut set: u64) -> impl Iterator<Item = usize> {
    std::iter::from_fn(move || {
        let lowest = (set != 0).then(|| set.trailing_zeros() as usize)?;
        set &= set - 1;
        Some(lowest)
    })
}
