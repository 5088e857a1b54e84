//! Pages and transactions to try: good ones, ones at an edge, and damaged ones.

use crate::cases::{ReadPage, WritePage};
use crate::tally::Tally;
use nevolisca_bench::node;
use nevolisca_bench::random::Random;
use nevolisca_bench::second::{Read, Version, Write, ENTRIES, PAGE};

const HEAD: usize = 8;
const READ: usize = 8;
const WRITE: usize = 12;
const CHECK_AT: usize = 508;
const MOST_KEYS: usize = 1024;
/// Counts of reads and writes on both sides of their edges.
const COUNTS: [(usize, usize); 10] = [
    (0, 0),
    (25, 25),
    (26, 25),
    (32, 20),
    (32, 21),
    (14, 32),
    (15, 32),
    (32, 32),
    (1, 0),
    (0, 1),
];
const EDGE_KEYS: [u16; 8] = [0, 1, 1022, 1023, 1024, 1025, 32768, 65535];
/// Places of a present or a deleted version, then those of neither; the last is absent's, with block 0.
pub const EDGE_PLACES: [u16; 12] = [
    0, 1, 62, 63, 32768, 32831, 64, 65, 32767, 32832, 65534, 65535,
];
/// Where in them those of neither begin.
pub const OF_NEITHER: usize = 6;
pub const EDGE_BLOCKS: [u32; 5] = [0, 1, 4, 1 << 31, u32::MAX];
pub const EDGE_KINDS: [u16; 6] = [0, 1, 2, 256, 257, 65535];
pub const EDGE_VALUES: [i64; 7] = [0, 1, -1, 256, 1 << 56, i64::MIN, i64::MAX];

/// The value of a good write of a kind: a delete has none.
pub fn value_of(random: &mut Random, kind: u16) -> i64 {
    match (kind, random.below(3)) {
        (1, _) => 0,
        (_, 0) => random.pick(&EDGE_VALUES),
        _ => random.word() as i64,
    }
}

/// A version of the right form: absent, deleted or present.
pub fn version(random: &mut Random) -> Version {
    let any = random.word() as u32;
    let block = random.pick(&[0, 1, 2, 7, u32::MAX, any]);
    let place = random.pick(&[0, 1, 5, 62, 63]);
    match random.below(3) {
        0 => Version::ABSENT,
        1 => Version::deleted(block, place),
        _ => Version { block, place },
    }
}

/// So many reads and writes, each good by itself.
pub fn entries(random: &mut Random, r: usize, w: usize) -> (Vec<Read>, Vec<Write>) {
    let mut keys = |count| {
        let end = random.pick(&[MOST_KEYS, MOST_KEYS, 64]);
        let mut keys = random.rising(count, end);
        if let (Some(last), true) = (keys.last_mut(), random.once_in(4)) {
            *last = MOST_KEYS as u16 - 1;
        }
        keys
    };
    let (read_keys, write_keys) = (keys(r), keys(w));
    let read = |key| Read {
        key,
        version: version(random),
    };
    let reads = read_keys.into_iter().map(read).collect();
    let write = |key| {
        let kind = random.below(2) as u16;
        let value = value_of(random, kind);
        Write { key, kind, value }
    };
    let writes = write_keys.into_iter().map(write).collect();
    (reads, writes)
}

/// Counts at an edge, or any.
fn some_counts(random: &mut Random) -> (usize, usize) {
    if random.once_in(2) {
        return random.pick(&COUNTS);
    }
    let (r, w) = (random.below(ENTRIES + 1), random.below(ENTRIES + 1));
    if READ * r + WRITE * w > 500 {
        (r / 2, w / 2)
    } else {
        (r, w)
    }
}

/// The bytes of a page with a good check, whatever it holds; what finds no room is left out.
pub fn lay(ticket: u32, reads: &[Read], writes: &[Write]) -> Vec<u8> {
    let mut page = vec![0x54, reads.len() as u8, writes.len() as u8, 0];
    page.extend(ticket.to_le_bytes());
    for read in reads {
        page.extend(read.key.to_le_bytes());
        page.extend(read.version.place.to_le_bytes());
        page.extend(read.version.block.to_le_bytes());
    }
    for write in writes {
        page.extend(write.key.to_le_bytes());
        page.extend(write.kind.to_le_bytes());
        page.extend(write.value.to_le_bytes());
    }
    page.resize(PAGE, 0);
    mend(&mut page);
    page
}

/// Makes the check of a page right again.
pub fn mend(page: &mut [u8]) {
    let mut check = 0u32;
    for (offset, &byte) in page[..CHECK_AT].iter().enumerate() {
        check += (offset as u32 + 1) * u32::from(byte);
    }
    page[CHECK_AT..PAGE].copy_from_slice(&check.to_le_bytes());
}

/// A good page, or one with counts at an edge.
fn some_page(random: &mut Random) -> Vec<u8> {
    let (r, w) = some_counts(random);
    let (reads, writes) = entries(random, r, w);
    lay(random.word() as u32, &reads, &writes)
}

/// Damages a page in one place, and most often mends the check.
pub fn spoil(random: &mut Random, page: &mut [u8]) {
    match random.below(4) {
        0 => spoil_bytes(random, page),
        1 => spoil_head(random, page),
        2 => spoil_reads(random, page),
        _ => spoil_writes(random, page),
    }
    if !random.once_in(6) {
        mend(page);
    }
}

/// One bit, one byte, two bytes exchanged, or a byte where spare ones lie.
fn spoil_bytes(random: &mut Random, page: &mut [u8]) {
    let at = random.below(PAGE);
    match random.below(4) {
        0 => page[at] ^= 1 << random.below(8),
        1 => page[at] = random.word() as u8,
        2 => page.swap(at, random.below(PAGE)),
        _ => {
            let used = HEAD + READ * usize::from(page[1]) + WRITE * usize::from(page[2]);
            let first = used.min(CHECK_AT - 1);
            let any = first + random.below(CHECK_AT - first);
            let spare = random.pick(&[first, CHECK_AT - 1, any]);
            page[spare] = random.pick(&[0, 1, 128, 255]);
        }
    }
}

/// A byte of the head, or both counts, at an edge.
fn spoil_head(random: &mut Random, page: &mut [u8]) {
    if random.once_in(3) {
        let (r, w) = random.pick(&COUNTS);
        (page[1], page[2]) = (r as u8, w as u8);
        return;
    }
    let at = random.below(4);
    page[at] = match at {
        0 => random.pick(&[0x54, 0x55, 0x45, 0]),
        3 => random.pick(&[0, 1, 128, 255]),
        _ => random.pick(&[0, 1, 19, 20, 21, 25, 26, 31, 32, 33, 34, 64, 255]),
    };
}

/// A key equal to the one before, at the edge of 1024, or out of order; or a version at the edge of its form.
fn spoil_reads(random: &mut Random, page: &mut [u8]) {
    let r = usize::from(page[1]).min(ENTRIES);
    if r == 0 {
        return;
    }
    let at = HEAD + READ * random.below(r);
    match random.below(3) {
        0 => spoil_key(random, page, at, READ),
        1 => page[at + 2..at + 4].copy_from_slice(&random.pick(&EDGE_PLACES).to_le_bytes()),
        _ => {
            page[at + 2..at + 4].copy_from_slice(&random.pick(&EDGE_PLACES).to_le_bytes());
            page[at + 4..at + 8].copy_from_slice(&random.pick(&EDGE_BLOCKS).to_le_bytes());
        }
    }
}

/// A key as above, a kind at its edge, or a value.
fn spoil_writes(random: &mut Random, page: &mut [u8]) {
    let (r, w) = (usize::from(page[1]).min(ENTRIES), usize::from(page[2]));
    let last = (CHECK_AT - HEAD - READ * r) / WRITE;
    if w.min(last) == 0 {
        return;
    }
    let at = HEAD + READ * r + WRITE * random.below(w.min(last));
    match random.below(3) {
        0 => spoil_key(random, page, at, WRITE),
        1 => page[at + 2..at + 4].copy_from_slice(&random.pick(&EDGE_KINDS).to_le_bytes()),
        _ => page[at + 4..at + 12].copy_from_slice(&random.pick(&EDGE_VALUES).to_le_bytes()),
    }
}

fn spoil_key(random: &mut Random, page: &mut [u8], at: usize, width: usize) {
    let other = if random.once_in(2) {
        at.max(HEAD + width) - width
    } else {
        at
    };
    let near = u16::from_le_bytes([page[other], page[other + 1]]);
    let step = random.pick(&[near, near.wrapping_add(1), near.wrapping_sub(1)]);
    let key = if random.once_in(2) {
        step
    } else {
        random.pick(&EDGE_KEYS)
    };
    page[at..at + 2].copy_from_slice(&key.to_le_bytes());
}

/// A transaction full of anything.
pub fn noise(random: &mut Random) -> node::Transaction {
    node::Transaction {
        head: std::array::from_fn(|_| random.word() as u32),
        read_keys: std::array::from_fn(|_| random.word() as u16),
        read_places: std::array::from_fn(|_| random.word() as u16),
        read_blocks: std::array::from_fn(|_| random.word() as u32),
        write_keys: std::array::from_fn(|_| random.word() as u16),
        write_kinds: std::array::from_fn(|_| random.word() as u16),
        write_values: std::array::from_fn(|_| random.word() as i64),
    }
}

/// Reading pages: good, damaged once or twice, and of other lengths.
pub fn read_pages(random: &mut Random, tally: &mut Tally, count: usize) {
    for _ in 0..count {
        let mut page = some_page(random);
        for _ in 0..random.pick(&[0, 1, 1, 2]) {
            spoil(random, &mut page);
        }
        if random.once_in(20) {
            page.resize(random.pick(&[0, 1, 508, 511, 513, 1024]), 0);
        }
        let into = noise(random);
        tally.run(&ReadPage { page, into });
    }
}

/// One page, with each byte changed in turn and each neighbouring pair exchanged.
pub fn each_byte(random: &mut Random, tally: &mut Tally) {
    let good = some_page(random);
    for at in 0..PAGE {
        let mut page = good.clone();
        page[at] = page[at].wrapping_add(1 + random.below(255) as u8);
        let into = noise(random);
        tally.run(&ReadPage { page, into });
        let mut page = good.clone();
        page.swap(at, (at + 1) % PAGE);
        let into = noise(random);
        tally.run(&ReadPage { page, into });
    }
}

/// A transaction to write: good entries at the front.
fn some_transaction(random: &mut Random) -> node::Transaction {
    let (r, w) = some_counts(random);
    let (reads, writes) = entries(random, r, w);
    transaction_of(random, &reads, &writes)
}

/// These entries at the front, anything beyond the counts.
pub fn transaction_of(random: &mut Random, reads: &[Read], writes: &[Write]) -> node::Transaction {
    let mut transaction = noise(random);
    transaction.head[0] = reads.len() as u32;
    transaction.head[1] = writes.len() as u32;
    for (i, read) in reads.iter().enumerate() {
        transaction.read_keys[i] = read.key;
        transaction.read_places[i] = read.version.place;
        transaction.read_blocks[i] = read.version.block;
    }
    for (i, write) in writes.iter().enumerate() {
        transaction.write_keys[i] = write.key;
        transaction.write_kinds[i] = write.kind;
        transaction.write_values[i] = write.value;
    }
    transaction
}

/// Brings one entry, most often one that counts, or a count of a transaction to an edge.
fn spoil_transaction(random: &mut Random, transaction: &mut node::Transaction) {
    let part = random.below(8);
    let count = transaction.head[usize::from(part > 3)] as usize;
    let end = if random.once_in(8) { ENTRIES } else { count };
    let at = random.below(end.clamp(1, ENTRIES));
    let near = at.max(1) - 1;
    match part {
        0 => {
            transaction.head[random.clone().below(2)] = random.pick(&[0, 20, 32, 33, 256, u32::MAX])
        }
        1 => transaction.read_keys[at] = random.pick(&EDGE_KEYS),
        2 => transaction.read_keys[at] = transaction.read_keys[near],
        3 => transaction.read_places[at] = random.pick(&EDGE_PLACES),
        4 => transaction.write_keys[at] = random.pick(&EDGE_KEYS),
        5 => transaction.write_keys[at] = transaction.write_keys[near],
        6 => transaction.write_kinds[at] = random.pick(&EDGE_KINDS),
        _ => transaction.write_values[at] = random.pick(&EDGE_VALUES),
    }
}

/// Writing pages: good transactions and others, at indexes on both sides of the last whole page.
pub fn write_pages(random: &mut Random, tally: &mut Tally, count: usize) {
    const LENGTHS: [usize; 9] = [0, 1, 511, 512, 513, 1024, 1535, 2048, 2049];
    for turn in 0..count {
        let most = if turn % 50 == 0 { 66 * PAGE } else { 2049 };
        let len = if turn % 50 == 0 {
            random.below(most)
        } else {
            random.pick(&LENGTHS)
        };
        let batch: Vec<u8> = (0..len).map(|_| random.word() as u8).collect();
        let whole = len / PAGE;
        let far = [
            whole,
            whole + 1,
            usize::MAX,
            usize::MAX / PAGE,
            usize::MAX / PAGE + 1,
        ];
        let near = [0, whole.max(1) - 1, random.below(whole + 1)];
        let index = if random.once_in(3) {
            random.pick(&far)
        } else {
            random.pick(&near)
        };
        let mut from = some_transaction(random);
        for _ in 0..random.pick(&[0, 0, 1, 2]) {
            spoil_transaction(random, &mut from);
        }
        tally.run(&WritePage { batch, index, from });
    }
}
