//! Checks of whole images.

mod images;

use images::{COPIED, image, put};
use zaqulle::{CheckTotals, Fault, Finding, image_check};

/// An image whose header, tables and block have refcount 1, and clusters 10 to 12 these refcounts.
fn counted(l2_entries: &[u64], counters: [u64; 3]) -> Vec<u8> {
    let mut bytes = image(l2_entries);
    for cluster in 0..5 {
        put(&mut bytes, 0x800 + 2 * cluster, 2, 1);
    }
    for (cluster, counter) in (10..).zip(counters) {
        put(&mut bytes, 0x800 + 2 * cluster, 2, counter);
    }
    bytes
}

#[test]
fn an_image_whose_counters_are_its_uses_is_consistent() {
    let mut findings = [Finding::default(); 4];
    let totals = image_check(&counted(&[COPIED | 0x1400], [1, 0, 0]), &mut findings).unwrap();
    assert!(totals.is_consistent());
    assert_eq!(findings, [Finding::default(); 4]);
}

#[test]
fn wrong_counters_and_flags_are_found() {
    let bytes = counted(&[COPIED | 0x1600, 0x1800], [3, 0, 1]);
    let expected = CheckTotals {
        findings: 2,
        leaked: 1,
        missing: 1,
        shared: 0,
        false_flags: 1,
        late_flags: 1,
    };
    let mut findings = [Finding::default(); 4];
    assert_eq!(image_check(&bytes, &mut findings), Ok(expected));
    let [leaked, missing, others @ ..] = findings;
    assert_eq!((leaked.cluster, leaked.counter, leaked.uses), (10, 3, 0));
    assert!(leaked.is_leaked() && !leaked.is_missing() && !leaked.is_shared());
    assert_eq!((missing.cluster, missing.counter, missing.uses), (11, 0, 1));
    assert!(missing.is_missing() && !missing.is_leaked() && !missing.is_shared());
    assert_eq!(others, [Finding::default(); 2]);
    // There may be more findings than fit.
    let mut first = [Finding::default(); 1];
    assert_eq!(image_check(&bytes, &mut first), Ok(expected));
    assert_eq!(first, [leaked]);
    assert_eq!(image_check(&bytes, &mut []), Ok(expected));
}

#[test]
fn an_image_that_uses_more_than_is_read_is_refused() {
    let mut bytes = counted(&[], [0; 3]);
    put(&mut bytes, 60, 4, 1);
    assert_eq!(image_check(&bytes, &mut []), Err(Fault::Uncounted));
    assert_eq!(image_check(&[], &mut []), Err(Fault::NotQcow2));
}
