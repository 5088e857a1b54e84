//! A transaction and its page of 512 bytes.

use super::offset;
use super::reason::Reason;
use super::state::{Version, MOST_KEYS};
use crate::answer::Refusal;

/// Bytes of a page.
pub const PAGE: usize = 512;
/// The most reads, and the most writes, of a transaction.
pub const ENTRIES: usize = 32;

pub(super) const MARK: u8 = 0x54;
/// Where mark, counts, zero and ticket end and the reads begin.
pub(super) const HEAD: usize = 8;
pub(super) const READ: usize = 8;
pub(super) const WRITE: usize = 12;
/// The most bytes of reads and writes together.
const ROOM: usize = 500;
/// Where the check stands; it sums the bytes before.
pub(super) const CHECK_AT: usize = 508;

const PUT: u16 = 0;
const DELETE: u16 = 1;

/// A read: its key, and the version that it names.
#[derive(Clone, Copy, Debug, PartialEq, Eq, Default)]
pub struct Read {
    pub key: u16,
    pub version: Version,
}

/// A write: its key, its kind (0 puts, 1 deletes) and its value.
#[derive(Clone, Copy, Debug, PartialEq, Eq, Default)]
pub struct Write {
    pub key: u16,
    pub kind: u16,
    pub value: i64,
}

impl Write {
    /// Whether it leaves its key deleted.
    pub fn deletes(&self) -> bool {
        self.kind == DELETE
    }

    pub(super) fn has_form(&self) -> bool {
        self.kind == PUT || self.kind == DELETE && self.value == 0
    }
}

/// The transaction as a value; entries beyond the counts mean nothing.
#[derive(Clone, Debug, PartialEq, Eq, Default)]
pub struct Transaction {
    pub read_count: u32,
    pub write_count: u32,
    pub ticket: u32,
    pub reads: [Read; ENTRIES],
    pub writes: [Write; ENTRIES],
}

/// A good page, seen where it lies.
#[derive(Clone, Copy, Debug)]
pub struct Page<'a> {
    pub bytes: &'a [u8],
    pub ticket: u32,
    reads: &'a [u8],
    writes: &'a [u8],
}

impl<'a> Page<'a> {
    /// Checks a page of 512 bytes, 2 to 10 in turn.
    pub fn check(bytes: &'a [u8]) -> Result<Self, Reason> {
        if checksum(bytes) != u32_at(bytes, CHECK_AT) {
            return Err(Reason::Check);
        }
        if bytes[0] != MARK || bytes[3] != 0 {
            return Err(Reason::Mark);
        }
        let (r, w) = counts(u32::from(bytes[1]), u32::from(bytes[2]))?;
        let (reads, rest) = bytes[HEAD..CHECK_AT].split_at(r * READ);
        let (writes, spare) = rest.split_at(w * WRITE);
        let page = Page {
            bytes,
            ticket: u32_at(bytes, 4),
            reads,
            writes,
        };
        check_entries(page.reads(), page.writes())?;
        if spare.iter().any(|&byte| byte != 0) {
            return Err(Reason::Spare);
        }
        Ok(page)
    }

    /// Its reads, in rising key order.
    pub fn reads(&self) -> impl DoubleEndedIterator<Item = Read> + Clone + 'a {
        self.reads.chunks_exact(READ).map(read_of)
    }

    /// Its writes, in rising key order.
    pub fn writes(&self) -> impl DoubleEndedIterator<Item = Write> + Clone + 'a {
        self.writes.chunks_exact(WRITE).map(write_of)
    }

    /// Whether every key is below K; keys rise, so the last ones tell.
    pub fn fits(&self, keys: usize) -> bool {
        let last_read = self.reads().next_back().map(|read| read.key);
        let last_write = self.writes().next_back().map(|write| write.key);
        last_read
            .max(last_write)
            .map_or(true, |key| usize::from(key) < keys)
    }
}

/// The sum over bytes 0 to 507 of (offset + 1) times the byte.
fn checksum(page: &[u8]) -> u32 {
    let weighted = |(offset, &byte): (usize, &u8)| (offset as u32 + 1) * u32::from(byte);
    page[..CHECK_AT].iter().enumerate().map(weighted).sum()
}

/// The counts as sizes, or 4 or 5.
fn counts(r: u32, w: u32) -> Result<(usize, usize), Reason> {
    let (r, w) = (r as usize, w as usize);
    if r > ENTRIES || w > ENTRIES {
        return Err(Reason::Counts);
    }
    if READ * r + WRITE * w > ROOM {
        return Err(Reason::Room);
    }
    Ok((r, w))
}

/// The rules on reads and writes, 6 to 9 in turn.
fn check_entries(
    reads: impl Iterator<Item = Read> + Clone,
    writes: impl Iterator<Item = Write> + Clone,
) -> Result<(), Reason> {
    if !rising(reads.clone().map(|read| read.key)) {
        return Err(Reason::ReadKeys);
    }
    if !reads.clone().all(|read| read.version.has_form()) {
        return Err(Reason::ReadVersion);
    }
    if !rising(writes.clone().map(|write| write.key)) {
        return Err(Reason::WriteKeys);
    }
    if !writes.clone().all(|write| write.has_form()) {
        return Err(Reason::Kind);
    }
    Ok(())
}

/// Whether keys rise strictly and stay below 1024.
fn rising(keys: impl Iterator<Item = u16>) -> bool {
    let mut least = 0;
    for key in keys {
        if key < least || usize::from(key) >= MOST_KEYS {
            return false;
        }
        least = key + 1;
    }
    true
}

fn u16_at(bytes: &[u8], at: usize) -> u16 {
    u16::from_le_bytes([bytes[at], bytes[at + 1]])
}

fn u32_at(bytes: &[u8], at: usize) -> u32 {
    u32::from_le_bytes(bytes[at..at + 4].try_into().expect("four bytes"))
}

pub(super) fn read_of(entry: &[u8]) -> Read {
    let (place, block) = (u16_at(entry, 2), u32_at(entry, 4));
    Read {
        key: u16_at(entry, 0),
        version: Version { block, place },
    }
}

pub(super) fn write_of(entry: &[u8]) -> Write {
    Write {
        key: u16_at(entry, 0),
        kind: u16_at(entry, 2),
        value: i64::from_le_bytes(entry[4..].try_into().expect("eight bytes")),
    }
}

/// Reads a page as a value, or refuses with 1, or with 2 to 10 at the fault's offset.
pub fn read_page(bytes: &[u8]) -> Result<Transaction, Refusal> {
    if bytes.len() != PAGE {
        return Err(Reason::PageLength.at(0));
    }
    let page = Page::check(bytes).map_err(|reason| reason.at(offset::on_page(reason, bytes)))?;
    let mut transaction = Transaction {
        read_count: u32::from(bytes[1]),
        write_count: u32::from(bytes[2]),
        ticket: page.ticket,
        ..Transaction::default()
    };
    for (slot, read) in transaction.reads.iter_mut().zip(page.reads()) {
        *slot = read;
    }
    for (slot, write) in transaction.writes.iter_mut().zip(page.writes()) {
        *slot = write;
    }
    Ok(transaction)
}

/// Writes a transaction as the page at an index of a batch, or refuses with 4 to 9 at the offset that the entry would
/// have, then 17.
pub fn write_page(
    batch: &mut [u8],
    index: usize,
    transaction: &Transaction,
) -> Result<(), Refusal> {
    let (reads, writes) = entries(transaction)
        .map_err(|reason| reason.at(offset::of_transaction(reason, transaction)))?;
    let page = batch.chunks_exact_mut(PAGE).nth(index);
    let page = page.ok_or(Reason::PageIndex.at(0))?;
    page.fill(0);
    page[0] = MARK;
    page[1] = reads.len() as u8;
    page[2] = writes.len() as u8;
    page[4..HEAD].copy_from_slice(&transaction.ticket.to_le_bytes());
    let (read_bytes, rest) = page[HEAD..CHECK_AT].split_at_mut(reads.len() * READ);
    for (entry, read) in read_bytes.chunks_exact_mut(READ).zip(reads) {
        entry[..2].copy_from_slice(&read.key.to_le_bytes());
        entry[2..4].copy_from_slice(&read.version.place.to_le_bytes());
        entry[4..].copy_from_slice(&read.version.block.to_le_bytes());
    }
    for (entry, write) in rest.chunks_exact_mut(WRITE).zip(writes) {
        entry[..2].copy_from_slice(&write.key.to_le_bytes());
        entry[2..4].copy_from_slice(&write.kind.to_le_bytes());
        entry[4..].copy_from_slice(&write.value.to_le_bytes());
    }
    let check = checksum(page);
    page[CHECK_AT..].copy_from_slice(&check.to_le_bytes());
    Ok(())
}

/// The entries that count, when the transaction can stand on a page: 4 to 9 in turn.
fn entries(transaction: &Transaction) -> Result<(&[Read], &[Write]), Reason> {
    let (r, w) = counts(transaction.read_count, transaction.write_count)?;
    let (reads, writes) = (&transaction.reads[..r], &transaction.writes[..w]);
    check_entries(reads.iter().copied(), writes.iter().copied())?;
    Ok((reads, writes))
}
