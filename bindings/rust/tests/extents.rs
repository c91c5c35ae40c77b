//! Extents of L2 tables and of whole images.

mod images;

use images::{COPIED, image, put};
use zaqulle::{Content, Extent, Fault, image_extents, l2_extents, read_header};

fn extent(start: u64, length: u64, content: Content) -> Extent {
    Extent {
        start,
        length,
        content,
    }
}

#[test]
fn entries_that_read_as_one_are_joined() {
    let header = read_header(&image(&[])).unwrap();
    let numbers = [
        COPIED | 0x1400,
        0x1600,
        0x1a00,
        0x1a01,
        0x1c01,
        1,
        1,
        0,
        0,
        1 << 62 | 7,
        1 << 62 | 5000,
    ];
    let bytes = numbers.map(u64::to_be_bytes).concat();
    let expected = [
        extent(0x8000, 1024, Content::Data(0x1400)),
        extent(0x8400, 512, Content::Data(0x1a00)),
        extent(0x8600, 1024, Content::AllocatedZeros(0x1a00)),
        extent(0x8a00, 1024, Content::Zeros),
        extent(0x8e00, 1024, Content::Backing),
        extent(0x9200, 1024, Content::Compressed),
    ];
    assert_eq!(l2_extents(&bytes, &header, 0x8000).unwrap(), expected);
    assert_eq!(l2_extents(&[], &header, 0).unwrap(), []);
}

#[test]
fn bytes_that_are_no_part_of_a_table_are_refused() {
    let header = read_header(&image(&[])).unwrap();
    assert_eq!(l2_extents(&[0; 7], &header, 0), Err(Fault::WrongLength));
    assert_eq!(l2_extents(&[0; 520], &header, 0), Err(Fault::WrongLength));
    assert_eq!(l2_extents(&[0; 8], &header, 511), Err(Fault::WrongLength));
    assert_eq!(
        l2_extents(&[0, 0, 0, 0, 0, 0, 0, 2], &header, 0),
        Err(Fault::EntryReserved)
    );
}

#[test]
fn extents_of_an_image_cover_its_disk() {
    let bytes = image(&[0, COPIED | 0x1400, COPIED | 0x1600, 1]);
    let expected = [
        extent(0, 512, Content::Backing),
        extent(512, 1024, Content::Data(0x1400)),
        extent(1536, 512, Content::Zeros),
        extent(2048, 60 * 512, Content::Backing),
    ];
    let found: Result<Vec<_>, _> = image_extents(&bytes, 0).collect();
    assert_eq!(found.unwrap(), expected);
    let found: Result<Vec<_>, _> = image_extents(&bytes, 700).collect();
    assert_eq!(
        found.unwrap()[0],
        extent(700, 836, Content::Data(0x1400 + 188))
    );
    assert_eq!(image_extents(&bytes, 64 * 512).next(), None);
    assert_eq!(image_extents(&bytes, u64::MAX).next(), None);
}

/// The image has more extents than one call asks for: 4096 of one cluster each, in 64 tables.
#[test]
fn many_extents_come_one_after_another() {
    let (tables, cluster) = (64, 512);
    let mut bytes = image(&[]);
    bytes.resize(0x2000 + tables * cluster, 0);
    put(&mut bytes, 24, 8, (tables * 64 * cluster) as u64);
    put(&mut bytes, 36, 4, tables as u64);
    put(&mut bytes, 40, 8, 0xe00);
    for table in 0..tables {
        let begin = 0x2000 + table * cluster;
        put(&mut bytes, 0xe00 + 8 * table, 8, COPIED | begin as u64);
        for index in 0..64 {
            put(&mut bytes, begin + 8 * index, 8, (index % 2) as u64);
        }
    }
    let extents: Result<Vec<_>, _> = image_extents(&bytes, 0).collect();
    let contents = [Content::Backing, Content::Zeros];
    let expected = (0..4096).map(|number| extent(512 * number, 512, contents[number as usize % 2]));
    assert_eq!(extents.unwrap(), expected.collect::<Vec<_>>());
}

/// The iterator returns the extents before a fault, then the fault, then nothing.
#[test]
fn a_fault_ends_the_extents() {
    let mut bytes = image(&[0, 1]);
    put(&mut bytes, 24, 8, 128 * 512);
    put(&mut bytes, 36, 4, 2);
    put(&mut bytes, 0x208, 8, COPIED | 0x1000);
    bytes[0x1007] = 2;
    let mut extents = image_extents(&bytes, 0);
    assert_eq!(extents.next(), Some(Ok(extent(0, 512, Content::Backing))));
    assert_eq!(extents.next(), Some(Ok(extent(512, 512, Content::Zeros))));
    assert_eq!(extents.next(), Some(Err(Fault::EntryReserved)));
    assert_eq!(extents.next(), None);
    assert_eq!(
        image_extents(&[], 0).collect::<Vec<_>>(),
        [Err(Fault::NotQcow2)]
    );
}
