//! The peer keeps what can stand together: its own example, and every workload committed in its order.
#![forbid(unsafe_code)]

use nevolisca_bench::peer;
use nevolisca_bench::second::{
    self, write_page, Read, State, StateMut, Transaction, Version, Write, PAGE,
};
use nevolisca_bench::workloads;

/// Document 000, Table 3: the keys read and written by T0 to T5.
const TABLE_3: [(&[u16], &[u16]); 6] = [
    (&[0, 1], &[2]),
    (&[3, 4, 5], &[0]),
    (&[6, 7], &[3, 9]),
    (&[2, 8], &[1, 4]),
    (&[9], &[5, 6, 8]),
    (&[], &[7]),
];

fn example() -> Vec<u8> {
    let mut batch = vec![0; TABLE_3.len() * PAGE];
    for (index, (reads, writes)) in TABLE_3.iter().enumerate() {
        let mut transaction = Transaction {
            read_count: reads.len() as u32,
            write_count: writes.len() as u32,
            ticket: index as u32,
            ..Transaction::default()
        };
        for (slot, &key) in transaction.reads.iter_mut().zip(*reads) {
            let version = Version::ABSENT;
            *slot = Read { key, version };
        }
        for (slot, &key) in transaction.writes.iter_mut().zip(*writes) {
            *slot = Write {
                key,
                ..Write::default()
            };
        }
        write_page(&mut batch, index, &transaction).expect("a good page");
    }
    batch
}

#[test]
fn the_example_of_document_000() {
    let (blocks, places, values) = ([0; 10], [65535; 10], [0; 10]);
    let state = State {
        blocks: &blocks,
        places: &places,
        values: &values,
    };
    let batch = example();
    let reordered = peer::plan(&batch, state, 1, &mut vec![0; batch.len()]).expect("good");
    assert_eq!(reordered.order, [5, 1, 3, 4]);
    assert!(!reordered.cap_hit);
}

#[test]
fn what_the_peer_keeps_has_no_cycle() {
    for workload in workloads::all() {
        let mut out = vec![0; workload.batch.len()];
        let (state, n) = (workload.ledger.view(), workload.ledger.n);
        let reordered = peer::plan(&workload.batch, state, n, &mut out).expect("good");
        let kept = reordered.order.len();
        let mut after = workload.ledger.clone();
        let state = StateMut {
            blocks: &mut after.blocks,
            places: &mut after.places,
            values: &mut after.values,
        };
        let passing = second::commit(&out[..kept * PAGE], state, n, &mut vec![0; kept]);
        assert_eq!(passing, Ok(kept as u32), "{}", workload.name);
    }
}
