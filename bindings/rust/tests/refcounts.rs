//! Refcounts of blocks, and their updates after edits.

mod images;

use images::put;
use zaqulle::{Clusters, Fault, read_refcounts, settle_refcounts};

#[test]
fn counters_of_each_width_are_read() {
    let mut block = vec![0; 512];
    block[..8].copy_from_slice(&[0b1010_0110, 0x53, 0, 7, 0, 0, 1, 0]);
    let rows: [(u32, [u64; 2]); 7] = [
        (0, [0, 1]),
        (1, [2, 1]),
        (2, [6, 10]),
        (3, [0xa6, 0x53]),
        (4, [0xa653, 7]),
        (5, [0xa653_0007, 0x0100]),
        (6, [0xa653_0007_0000_0100, 0]),
    ];
    for (order, expected) in rows {
        let mut counters = [9; 2];
        read_refcounts(&block, order, 0, &mut counters).unwrap();
        assert_eq!(counters, expected, "order {order}");
    }
    let mut counters = [9; 2];
    assert_eq!(
        read_refcounts(&block, 7, 0, &mut counters),
        Err(Fault::RefcountWidth)
    );
    assert_eq!(
        read_refcounts(&block[..511], 4, 0, &mut counters),
        Err(Fault::WrongLength)
    );
    assert_eq!(
        read_refcounts(&block, 4, 255, &mut counters),
        Err(Fault::BadStep)
    );
    assert_eq!(counters, [9; 2]);
}

fn clusters(first: u64, count: u64) -> Clusters {
    Clusters { first, count }
}

#[test]
fn counters_follow_what_was_freed_and_gained_in_their_block() {
    // The second block counts the clusters from 256 on.
    let mut block = vec![0; 512];
    put(&mut block, 0, 2, 3);
    put(&mut block, 510, 2, 1);
    settle_refcounts(
        &mut block,
        4,
        1,
        &[clusters(255, 2), clusters(511, 3)],
        &[257, 512],
    )
    .unwrap();
    let mut expected = vec![0; 512];
    put(&mut expected, 0, 2, 2);
    put(&mut expected, 2, 2, 1);
    assert_eq!(block, expected);
    assert_eq!(
        settle_refcounts(&mut block, 4, 1, &[clusters(256, 2), clusters(258, 1)], &[]),
        Err(Fault::CounterRange)
    );
    assert_eq!(
        settle_refcounts(&mut block, 7, 1, &[], &[]),
        Err(Fault::RefcountWidth)
    );
    assert_eq!(
        settle_refcounts(&mut block[..100], 4, 1, &[], &[]),
        Err(Fault::WrongLength)
    );
    assert_eq!(block, expected);
}
