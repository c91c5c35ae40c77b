//! L1 and L2 entries, and lookups in whole images.

mod images;

use images::{CLUSTER, COPIED, image};
use zaqulle::{
    BadEntry, Fault, Header, L2Pointer, Mapping, first_bad_l2_entry, image_lookup, l1_entry,
    l2_entry, read_header,
};

const COMPRESSED: u64 = 1 << 62;

fn header() -> Header {
    read_header(&image(&[])).unwrap()
}

#[test]
fn an_l1_entry_names_a_table_or_none() {
    let rows = [
        (0, Ok(None)),
        (COPIED, Ok(None)),
        (
            0x400,
            Ok(Some(L2Pointer {
                offset: 0x400,
                copied: false,
            })),
        ),
        (
            COPIED | 0xff_ffff_ffff_fe00,
            Ok(Some(L2Pointer {
                offset: 0xff_ffff_ffff_fe00,
                copied: true,
            })),
        ),
        (0x401, Err(Fault::EntryReserved)),
        (COMPRESSED | 0x400, Err(Fault::EntryReserved)),
    ];
    for (number, expected) in rows {
        assert_eq!(l1_entry(number, &header()), expected, "{number:#x}");
    }
}

#[test]
fn an_l2_entry_says_what_the_whole_cluster_reads_as() {
    let (offset, length) = (0x1400, 512);
    let rows = [
        (
            0,
            Ok(Mapping::Backing {
                offset: 0x600,
                length,
            }),
        ),
        (
            0x1400,
            Ok(Mapping::Data {
                offset,
                length,
                copied: false,
            }),
        ),
        (
            COPIED | 0x1400,
            Ok(Mapping::Data {
                offset,
                length,
                copied: true,
            }),
        ),
        (1, Ok(Mapping::Zeros)),
        (
            COPIED | 0x1401,
            Ok(Mapping::AllocatedZeros {
                offset,
                length,
                copied: true,
            }),
        ),
        (
            COMPRESSED | 0x1410,
            Ok(Mapping::Compressed {
                offset: 0x1410,
                length: 496,
            }),
        ),
        (COMPRESSED | COPIED | 0x1410, Err(Fault::EntryReserved)),
        (2, Err(Fault::EntryReserved)),
        (u64::MAX, Err(Fault::EntryReserved)),
    ];
    for (number, expected) in rows {
        assert_eq!(l2_entry(number, &header(), 0x7ff), expected, "{number:#x}");
    }
}

#[test]
fn an_offset_inside_of_a_larger_cluster_is_refused() {
    let mut bytes = vec![0; 1024];
    bytes[..512].copy_from_slice(&image(&[])[..512]);
    images::put(&mut bytes, 20, 4, 10);
    images::put(&mut bytes, 40, 8, 0x400);
    images::put(&mut bytes, 48, 8, 0x800);
    let header = read_header(&bytes).unwrap();
    assert_eq!(l1_entry(0x200, &header), Err(Fault::EntryUnaligned));
    assert_eq!(l2_entry(0x200, &header, 0), Err(Fault::EntryUnaligned));
}

#[test]
fn the_first_bad_number_is_found() {
    let header = header();
    let mut bytes = [0; 64];
    assert_eq!(first_bad_l2_entry(&[], &header), Ok(None));
    assert_eq!(first_bad_l2_entry(&bytes, &header), Ok(None));
    bytes[8 * 5 + 7] = 2;
    bytes[8 * 6 + 7] = 2;
    let bad = BadEntry {
        index: 5,
        fault: Fault::EntryReserved,
    };
    assert_eq!(first_bad_l2_entry(&bytes, &header), Ok(Some(bad)));
    assert_eq!(first_bad_l2_entry(&bytes[..40], &header), Ok(None));
    assert_eq!(
        first_bad_l2_entry(&bytes[..63], &header),
        Err(Fault::WrongLength)
    );
}

#[test]
fn an_offset_is_looked_up_in_a_whole_image() {
    let mut bytes = image(&[COPIED | 0x1400, 1]);
    let rows = [
        (
            0,
            Mapping::Data {
                offset: 0x1400,
                length: 512,
                copied: true,
            },
        ),
        (
            511,
            Mapping::Data {
                offset: 0x1400,
                length: 512,
                copied: true,
            },
        ),
        (512, Mapping::Zeros),
        (
            1024,
            Mapping::Backing {
                offset: 1024,
                length: 512,
            },
        ),
        (
            u64::MAX,
            Mapping::Backing {
                offset: u64::MAX - 511,
                length: 512,
            },
        ),
    ];
    for (offset, expected) in rows {
        assert_eq!(image_lookup(&bytes, offset), Ok(expected), "{offset}");
    }
    assert_eq!(
        image_lookup(&bytes[..CLUSTER], 0),
        Ok(Mapping::Backing {
            offset: 0,
            length: 512
        })
    );
    assert_eq!(image_lookup(&[], 0), Err(Fault::NotQcow2));
    bytes[0x400 + 15] = 2;
    assert_eq!(image_lookup(&bytes, 0), Err(Fault::EntryReserved));
}

/// Lookups are thread-safe.
#[test]
fn threads_look_up_the_same_bytes() {
    let bytes = image(&[COPIED | 0x1400]);
    let expected = Ok(Mapping::Data {
        offset: 0x1400,
        length: 512,
        copied: true,
    });
    std::thread::scope(|scope| {
        for _ in 0..4 {
            scope.spawn(|| (0..1000).for_each(|_| assert_eq!(image_lookup(&bytes, 0), expected)));
        }
    });
}
