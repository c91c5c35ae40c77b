//! Edits of L2 tables.

mod images;

use images::{COPIED, image, put};
use zaqulle::{Clusters, Edit, Fault, Outcome, RefusedEdits, edit_l2_table, read_header};

#[test]
fn edits_are_made_in_turn() {
    let header = read_header(&image(&[])).unwrap();
    let mut table = vec![0; 512];
    put(&mut table, 0, 8, COPIED | 0x1400);
    put(&mut table, 8, 8, COPIED | 0x1600);
    // compressed data in clusters 11 and 12
    put(&mut table, 16, 8, 1 << 62 | 1 << 61 | 0x1700);
    let edits = [
        Edit::Map {
            index: 63,
            host_offset: 0x1a00,
        },
        Edit::Zero {
            index: 0,
            keep_allocation: true,
        },
        Edit::Zero {
            index: 1,
            keep_allocation: false,
        },
        Edit::Discard { index: 2 },
    ];
    let outcome = Outcome {
        freed: [(11, 1), (11, 2)]
            .map(|(first, count)| Clusters { first, count })
            .to_vec(),
        gained: vec![13],
    };
    assert_eq!(edit_l2_table(&mut table, &header, &edits), Ok(outcome));
    let mut expected = vec![0; 512];
    put(&mut expected, 0, 8, COPIED | 0x1401);
    put(&mut expected, 8, 8, 1);
    put(&mut expected, 504, 8, COPIED | 0x1a00);
    assert_eq!(table, expected);
    assert_eq!(
        edit_l2_table(&mut table, &header, &[]),
        Ok(Outcome::default())
    );
}

#[test]
fn one_refused_edit_refuses_all() {
    let header = read_header(&image(&[])).unwrap();
    let mut table = vec![0; 512];
    put(&mut table, 8, 8, COPIED | 0x1600);
    let before = table.clone();
    let first = Edit::Discard { index: 1 };
    let past = Edit::Discard { index: 64 };
    let unaligned = Edit::Map {
        index: 0,
        host_offset: 0x1700,
    };
    for (edits, fault, place) in [
        ([first, past], Fault::BadEdit, Some(1)),
        ([unaligned, past], Fault::BadEdit, Some(0)),
    ] {
        let refused = edit_l2_table(&mut table, &header, &edits);
        assert_eq!(refused, Err(RefusedEdits { fault, place }));
    }
    let fault = Fault::WrongLength;
    assert_eq!(
        edit_l2_table(&mut table[..504], &header, &[first]),
        Err(RefusedEdits { fault, place: None })
    );
    assert_eq!(table, before);
    put(&mut table, 504, 8, 2);
    let refused = edit_l2_table(&mut table, &header, &[first]).unwrap_err();
    assert_eq!(
        (refused.fault, refused.place),
        (Fault::EntryReserved, Some(63))
    );
    assert_eq!(refused.to_string(), Fault::EntryReserved.to_string());
}
