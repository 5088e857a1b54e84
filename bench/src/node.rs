//! The proved services, called over their C interface (`include/nevolisca.h`). The only `unsafe` of this package.

use crate::answer::{Answer, Refusal};
use crate::second;

/// Entries of each array of a transaction.
pub const ENTRIES: usize = 32;

/// A transaction as the C interface lends it: the counts and the ticket, and six arrays.
#[derive(Clone, Debug, PartialEq, Eq)]
pub struct Transaction {
    /// Number of reads, number of writes, ticket.
    pub head: [u32; 3],
    pub read_keys: [u16; ENTRIES],
    pub read_places: [u16; ENTRIES],
    pub read_blocks: [u32; ENTRIES],
    pub write_keys: [u16; ENTRIES],
    pub write_kinds: [u16; ENTRIES],
    pub write_values: [i64; ENTRIES],
}

/// The arrays as which the second opinion's transaction is lent.
impl From<&second::Transaction> for Transaction {
    fn from(from: &second::Transaction) -> Self {
        Transaction {
            head: [from.read_count, from.write_count, from.ticket],
            read_keys: from.reads.map(|read| read.key),
            read_places: from.reads.map(|read| read.version.place),
            read_blocks: from.reads.map(|read| read.version.block),
            write_keys: from.writes.map(|write| write.key),
            write_kinds: from.writes.map(|write| write.kind),
            write_values: from.writes.map(|write| write.value),
        }
    }
}

/// The parts of a transaction, each borrowed on its own, to be filled.
pub struct PartsMut<'a> {
    pub head: &'a mut [u32; 3],
    pub read_keys: &'a mut [u16; ENTRIES],
    pub read_places: &'a mut [u16; ENTRIES],
    pub read_blocks: &'a mut [u32; ENTRIES],
    pub write_keys: &'a mut [u16; ENTRIES],
    pub write_kinds: &'a mut [u16; ENTRIES],
    pub write_values: &'a mut [i64; ENTRIES],
}

/// The parts of a transaction, each borrowed on its own, to be read.
pub struct Parts<'a> {
    pub head: &'a [u32; 3],
    pub read_keys: &'a [u16; ENTRIES],
    pub read_places: &'a [u16; ENTRIES],
    pub read_blocks: &'a [u32; ENTRIES],
    pub write_keys: &'a [u16; ENTRIES],
    pub write_kinds: &'a [u16; ENTRIES],
    pub write_values: &'a [i64; ENTRIES],
}

impl Transaction {
    /// No reads, no writes, ticket 0, zeros throughout.
    pub const EMPTY: Transaction = Transaction {
        head: [0; 3],
        read_keys: [0; ENTRIES],
        read_places: [0; ENTRIES],
        read_blocks: [0; ENTRIES],
        write_keys: [0; ENTRIES],
        write_kinds: [0; ENTRIES],
        write_values: [0; ENTRIES],
    };

    /// Its parts, to be read.
    pub fn parts(&self) -> Parts<'_> {
        Parts {
            head: &self.head,
            read_keys: &self.read_keys,
            read_places: &self.read_places,
            read_blocks: &self.read_blocks,
            write_keys: &self.write_keys,
            write_kinds: &self.write_kinds,
            write_values: &self.write_values,
        }
    }

    /// Its parts, to be filled.
    pub fn parts_mut(&mut self) -> PartsMut<'_> {
        PartsMut {
            head: &mut self.head,
            read_keys: &mut self.read_keys,
            read_places: &mut self.read_places,
            read_blocks: &mut self.read_blocks,
            write_keys: &mut self.write_keys,
            write_kinds: &mut self.write_kinds,
            write_values: &mut self.write_values,
        }
    }
}

mod c {
    extern "C" {
        pub fn nevolisca_read_page(
            page: *const u8,
            len: usize,
            head: *mut u32,
            read_keys: *mut u16,
            read_places: *mut u16,
            read_blocks: *mut u32,
            write_keys: *mut u16,
            write_kinds: *mut u16,
            write_values: *mut i64,
        ) -> u64;
        pub fn nevolisca_write_page(
            batch: *mut u8,
            len: usize,
            index: usize,
            head: *const u32,
            read_keys: *const u16,
            read_places: *const u16,
            read_blocks: *const u32,
            write_keys: *const u16,
            write_kinds: *const u16,
            write_values: *const i64,
        ) -> u64;
        pub fn nevolisca_plan(
            batch: *const u8,
            len: usize,
            blocks: *const u32,
            blocks_len: usize,
            places: *const u16,
            places_len: usize,
            values: *const i64,
            values_len: usize,
            n: u32,
            verdicts: *mut u8,
            verdicts_len: usize,
            order: *mut u8,
            order_len: usize,
            out: *mut u8,
            out_len: usize,
        ) -> u64;
        pub fn nevolisca_commit(
            batch: *const u8,
            len: usize,
            blocks: *mut u32,
            blocks_len: usize,
            places: *mut u16,
            places_len: usize,
            values: *mut i64,
            values_len: usize,
            n: u32,
            verdicts: *mut u8,
            verdicts_len: usize,
        ) -> u64;
        pub fn nevolisca_plan_and_commit(
            batch: *const u8,
            len: usize,
            blocks: *mut u32,
            blocks_len: usize,
            places: *mut u16,
            places_len: usize,
            values: *mut i64,
            values_len: usize,
            n: u32,
            verdicts: *mut u8,
            verdicts_len: usize,
            order: *mut u8,
            order_len: usize,
        ) -> u64;
        pub fn nevolisca_read_tonnage(text: *const u8, len: usize, kilograms: *mut i64) -> u64;
        pub fn nevolisca_write_tonnage(text: *mut u8, len: usize, kilograms: i64) -> u64;
    }
}

/// The two halves of a returned word: a refusal number above a place, or 0 above a count.
fn answer(word: u64) -> Answer {
    let (number, rest) = ((word >> 32) as u32, word as u32);
    if number == 0 {
        Ok(rest)
    } else {
        Err(Refusal {
            number,
            place: rest,
        })
    }
}

/// Reads a page into the parts of a transaction.
pub fn read_page(page: &[u8], into: PartsMut<'_>) -> Answer {
    // Safety: every pointer comes from a slice or array of the length that the header asks for.
    answer(unsafe {
        c::nevolisca_read_page(
            page.as_ptr(),
            page.len(),
            into.head.as_mut_ptr(),
            into.read_keys.as_mut_ptr(),
            into.read_places.as_mut_ptr(),
            into.read_blocks.as_mut_ptr(),
            into.write_keys.as_mut_ptr(),
            into.write_kinds.as_mut_ptr(),
            into.write_values.as_mut_ptr(),
        )
    })
}

/// Writes a transaction as the page at an index of a batch.
pub fn write_page(batch: &mut [u8], index: usize, from: Parts<'_>) -> Answer {
    // Safety: as above.
    answer(unsafe {
        c::nevolisca_write_page(
            batch.as_mut_ptr(),
            batch.len(),
            index,
            from.head.as_ptr(),
            from.read_keys.as_ptr(),
            from.read_places.as_ptr(),
            from.read_blocks.as_ptr(),
            from.write_keys.as_ptr(),
            from.write_kinds.as_ptr(),
            from.write_values.as_ptr(),
        )
    })
}

/// Plans a batch over a state of blocks, places and values under the number n.
#[allow(clippy::too_many_arguments)]
pub fn plan(
    batch: &[u8],
    blocks: &[u32],
    places: &[u16],
    values: &[i64],
    n: u32,
    verdicts: &mut [u8],
    order: &mut [u8],
    out: &mut [u8],
) -> Answer {
    // Safety: each pointer goes with the length of its own slice; the borrows forbid an overlap.
    answer(unsafe {
        c::nevolisca_plan(
            batch.as_ptr(),
            batch.len(),
            blocks.as_ptr(),
            blocks.len(),
            places.as_ptr(),
            places.len(),
            values.as_ptr(),
            values.len(),
            n,
            verdicts.as_mut_ptr(),
            verdicts.len(),
            order.as_mut_ptr(),
            order.len(),
            out.as_mut_ptr(),
            out.len(),
        )
    })
}

/// Commits a batch to a state of blocks, places and values under the number n.
pub fn commit(
    batch: &[u8],
    blocks: &mut [u32],
    places: &mut [u16],
    values: &mut [i64],
    n: u32,
    verdicts: &mut [u8],
) -> Answer {
    // Safety: as for plan.
    answer(unsafe {
        c::nevolisca_commit(
            batch.as_ptr(),
            batch.len(),
            blocks.as_mut_ptr(),
            blocks.len(),
            places.as_mut_ptr(),
            places.len(),
            values.as_mut_ptr(),
            values.len(),
            n,
            verdicts.as_mut_ptr(),
            verdicts.len(),
        )
    })
}

/// Plans a batch over a state of blocks, places and values under the number n, and commits what is kept.
pub fn plan_and_commit(
    batch: &[u8],
    blocks: &mut [u32],
    places: &mut [u16],
    values: &mut [i64],
    n: u32,
    verdicts: &mut [u8],
    order: &mut [u8],
) -> Answer {
    // Safety: as for plan.
    answer(unsafe {
        c::nevolisca_plan_and_commit(
            batch.as_ptr(),
            batch.len(),
            blocks.as_mut_ptr(),
            blocks.len(),
            places.as_mut_ptr(),
            places.len(),
            values.as_mut_ptr(),
            values.len(),
            n,
            verdicts.as_mut_ptr(),
            verdicts.len(),
            order.as_mut_ptr(),
            order.len(),
        )
    })
}

/// Reads a tonnage text.
pub fn read_tonnage(text: &[u8], kilograms: &mut i64) -> Answer {
    // Safety: the text goes with its length, and the figure is one word.
    answer(unsafe { c::nevolisca_read_tonnage(text.as_ptr(), text.len(), kilograms) })
}

/// Writes kilograms as a tonnage text to the front of a buffer, and gives the length.
pub fn write_tonnage(text: &mut [u8], kilograms: i64) -> Answer {
    // Safety: the buffer goes with its length.
    answer(unsafe { c::nevolisca_write_tonnage(text.as_mut_ptr(), text.len(), kilograms) })
}
