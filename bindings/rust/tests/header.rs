//! Fields and names of headers, and the faults of invalid headers.

mod images;

use images::{image, put};
use zaqulle::{Fault, header_bytes, read_header};

/// Each field has a number of its own, so the test fails if fields are swapped.
#[test]
fn each_field_is_what_its_bytes_say() {
    let mut bytes = image(&[]);
    put(&mut bytes, 24, 8, 0x0102_0304_0506_0708);
    put(&mut bytes, 32, 4, 11);
    put(&mut bytes, 36, 4, 12);
    put(&mut bytes, 56, 4, 13);
    put(&mut bytes, 60, 4, 14);
    put(&mut bytes, 64, 8, 0x3000);
    put(&mut bytes, 72, 8, 4);
    put(&mut bytes, 80, 8, 1 << 63);
    put(&mut bytes, 88, 8, 15);
    put(&mut bytes, 96, 4, 6);
    let header = read_header(&bytes).unwrap();
    assert_eq!(
        (
            header.version(),
            header.cluster_bits(),
            header.refcount_order()
        ),
        (3, 9, 6)
    );
    assert_eq!(
        (
            header.cluster_size(),
            header.l2_entries(),
            header.block_entries()
        ),
        (512, 64, 64)
    );
    assert_eq!(
        (header.size(), header.crypt_method()),
        (0x0102_0304_0506_0708, 11)
    );
    assert_eq!((header.l1_offset(), header.l1_entries()), (0x200, 12));
    assert_eq!(
        (header.reftable_offset(), header.reftable_clusters()),
        (0x600, 13)
    );
    assert_eq!(
        (header.snapshots(), header.snapshots_offset()),
        (14, 0x3000)
    );
    assert_eq!(
        (header.compatible_features(), header.autoclear_features()),
        (1 << 63, 15)
    );
    assert!(header.has_external_data_file());
}

#[test]
fn names_are_texts_of_the_first_cluster() {
    let mut bytes = image(&[]);
    put(&mut bytes, 8, 8, 507);
    put(&mut bytes, 16, 4, 5);
    bytes[104..130].copy_from_slice(b"\xe2\x79\x2a\xca\0\0\0\x03raw\0\0\0\0\0DATA\0\0\0\x02ab");
    bytes[507..512].copy_from_slice("bäse".as_bytes());
    let header = read_header(&bytes).unwrap();
    assert_eq!(header.backing_name(&bytes), Some("bäse"));
    assert_eq!(header.backing_format(&bytes), Some("raw"));
    assert_eq!(header.data_file(&bytes), Some("ab"));
    // In bytes other than those that the header was read from, names are missing or different.
    assert_eq!(header.backing_name(&bytes[..511]), None);
    assert_eq!(header.backing_name(&[0xff; 512]), None);
    assert_eq!(header.backing_name(&[]), None);
}

#[test]
fn an_image_without_names_has_none() {
    let bytes = image(&[]);
    let header = read_header(&bytes).unwrap();
    assert_eq!(header.backing_name(&bytes), None);
    assert_eq!(header.backing_format(&bytes), None);
    assert_eq!(header.data_file(&bytes), None);
}

#[test]
fn few_bytes_are_refused_by_their_length() {
    let bytes = image(&[]);
    for length in [0, 1, 103] {
        assert_eq!(
            header_bytes(&bytes[..length]),
            Err(Fault::WrongLength),
            "{length} bytes"
        );
        assert_eq!(
            read_header(&bytes[..length]),
            Err(Fault::WrongLength),
            "{length} bytes"
        );
    }
    for length in [104, 511] {
        assert_eq!(header_bytes(&bytes[..length]), Ok(512), "{length} bytes");
        assert_eq!(
            read_header(&bytes[..length]),
            Err(Fault::WrongLength),
            "{length} bytes"
        );
    }
    assert!(read_header(&bytes[..512]).is_ok());
}

#[test]
fn a_field_that_breaks_a_rule_is_refused_by_its_fault() {
    let rows = [
        (0, 4, 0x5146_49fa, Fault::NotQcow2),
        (4, 4, 4, Fault::Version),
        (20, 4, 8, Fault::ClusterSize),
        (20, 4, 22, Fault::ClusterSize),
        (100, 4, 103, Fault::HeaderShort),
        (100, 4, 513, Fault::HeaderBig),
        (40, 8, 0x201, Fault::L1Unaligned),
        (48, 8, 0x601, Fault::ReftableUnaligned),
        (96, 4, 7, Fault::RefcountWidth),
        (72, 8, 16, Fault::Incompatible),
    ];
    for (place, size, number, fault) in rows {
        let mut bytes = image(&[]);
        put(&mut bytes, place, size, number);
        assert_eq!(read_header(&bytes), Err(fault), "{number} at {place}");
    }
}

#[test]
fn features_are_told() {
    for features in 0..8 {
        let mut bytes = image(&[]);
        put(&mut bytes, 72, 8, features);
        let header = read_header(&bytes).unwrap();
        let told = [
            header.is_dirty(),
            header.is_corrupt(),
            header.has_external_data_file(),
            header.is_zstd(),
        ];
        let expected = [0, 1, 2, 3].map(|bit| features >> bit & 1 == 1);
        assert_eq!(told, expected, "features {features}");
    }
}

#[test]
fn faults_have_the_numbers_from_1_to_42() {
    let numbers: Vec<_> = Fault::NAMED.iter().map(|fault| fault.number()).collect();
    assert_eq!(numbers, (1..=42).collect::<Vec<_>>());
    for fault in Fault::NAMED {
        assert_eq!(Fault::from_number(fault.number()), Some(*fault));
    }
    assert_eq!(Fault::from_number(0), None);
    assert_eq!(Fault::from_number(43), Some(Fault::Unknown(43)));
    assert_eq!(Fault::Unknown(43).number(), 43);
}

#[test]
fn a_fault_is_an_error_that_threads_may_pass_on() {
    fn is_error<T: std::error::Error + Send + Sync + 'static>() {}
    is_error::<Fault>();
}
