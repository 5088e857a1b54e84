//! Where a fault stands on a page, by document 02's E1; worked out only once a page or transaction is refused.

use super::page::{
    read_of, write_of, Read, Transaction, Write, CHECK_AT, ENTRIES, HEAD, MARK, READ, WRITE,
};
use super::reason::Reason;
use super::state::MOST_KEYS;

/// Where mark, both counts and the byte that is always 0 stand.
const MARK_AT: usize = 0;
const READ_COUNT_AT: usize = 1;
const WRITE_COUNT_AT: usize = 2;
const ZERO_AT: usize = 3;
/// Where a read's version and a write's kind stand in the entry, after the key.
const AFTER_KEY: usize = 2;

/// The offset of the fault for which a page is refused, 2 to 10.
#[cold]
pub fn on_page(reason: Reason, page: &[u8]) -> usize {
    let r = usize::from(page[READ_COUNT_AT]);
    let w = usize::from(page[WRITE_COUNT_AT]);
    match reason {
        Reason::Check => CHECK_AT,
        Reason::Mark if page[MARK_AT] != MARK => MARK_AT,
        Reason::Mark => ZERO_AT,
        Reason::Spare => {
            let spare = HEAD + READ * r + WRITE * w;
            spare + index_of(&page[spare..CHECK_AT], |&&byte| byte != 0)
        }
        _ => {
            let front = &page[..CHECK_AT];
            let reads = front[HEAD..].chunks_exact(READ).take(r).map(read_of);
            let writes = front.get(HEAD + READ * r..).unwrap_or_default();
            let writes = writes.chunks_exact(WRITE).take(w).map(write_of);
            among(reason, r, reads, writes)
        }
    }
}

/// The offset that the fault for which a transaction is refused, 4 to 9, would have on its page.
#[cold]
pub fn of_transaction(reason: Reason, transaction: &Transaction) -> usize {
    let Transaction { reads, writes, .. } = transaction;
    let (r, w) = (transaction.read_count, transaction.write_count);
    let reads = reads.iter().take(r as usize).copied();
    let writes = writes.iter().take(w as usize).copied();
    among(reason, r as usize, reads, writes)
}

/// The offset of a fault in the counts or entries, 4 to 9.
fn among(
    reason: Reason,
    r: usize,
    reads: impl Iterator<Item = Read>,
    writes: impl Iterator<Item = Write>,
) -> usize {
    let read_at = |index: usize| HEAD + READ * index;
    let write_at = |index: usize| HEAD + READ * r + WRITE * index;
    match reason {
        Reason::Counts if r > ENTRIES => READ_COUNT_AT,
        Reason::Counts => WRITE_COUNT_AT,
        Reason::Room => READ_COUNT_AT,
        Reason::ReadKeys => read_at(first_not_rising(reads.map(|read| read.key))),
        Reason::ReadVersion => {
            read_at(index_of(reads, |read| !read.version.has_form())) + AFTER_KEY
        }
        Reason::WriteKeys => write_at(first_not_rising(writes.map(|write| write.key))),
        Reason::Kind => write_at(index_of(writes, |write| !write.has_form())) + AFTER_KEY,
        _ => unreachable!("{reason:?} is no fault of counts or entries"),
    }
}

/// The index of the first key that is 1024 or more, or not above the one before it.
fn first_not_rising(keys: impl Iterator<Item = u16>) -> usize {
    let keys: Vec<u16> = keys.collect();
    let first_high = keys.iter().position(|&key| usize::from(key) >= MOST_KEYS);
    let later_of_pair = keys.windows(2).position(|pair| pair[0] >= pair[1]);
    let faults = first_high.into_iter().chain(later_of_pair.map(|at| at + 1));
    faults.min().expect("keys that do not rise")
}

/// The index of the first item that a test finds; there is one.
fn index_of<T>(items: impl IntoIterator<Item = T>, found: impl Fn(&T) -> bool) -> usize {
    let mut items = items.into_iter();
    items.position(|item| found(&item)).expect("one is there")
}
