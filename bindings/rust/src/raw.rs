//! The declarations of `zaqulle.h` and their calls: the only unsafe code of this crate.
//!
//! Each call passes a slice as its pointer and its length, and a result as a place of its type that
//! nothing else refers to. The functions require no more of their pointers.
#![allow(unsafe_code)]

use crate::{CheckTotals, Clusters, Fault, Finding};

/// `zq_name`.
#[repr(C)]
#[derive(Clone, Copy, Debug, Default, PartialEq, Eq, Hash)]
pub(crate) struct Name {
    pub(crate) offset: u32,
    pub(crate) length: u32,
}

/// `zq_header`.
#[repr(C)]
#[derive(Clone, Copy, Debug, Default, PartialEq, Eq, Hash)]
pub(crate) struct Header {
    pub(crate) version: u32,
    pub(crate) cluster_bits: u32,
    pub(crate) refcount_order: u32,
    pub(crate) crypt_method: u32,
    pub(crate) size: u64,
    pub(crate) l1_offset: u64,
    pub(crate) reftable_offset: u64,
    pub(crate) l1_entries: u32,
    pub(crate) reftable_clusters: u32,
    pub(crate) incompatible_features: u64,
    pub(crate) compatible_features: u64,
    pub(crate) autoclear_features: u64,
    pub(crate) snapshots_offset: u64,
    pub(crate) snapshots: u32,
    pub(crate) backing_name: Name,
    pub(crate) backing_format: Name,
    pub(crate) data_file: Name,
}

/// `zq_mapping`.
#[repr(C)]
#[derive(Clone, Copy, Debug, Default)]
pub(crate) struct Mapping {
    pub(crate) kind: u32,
    pub(crate) copied: u32,
    pub(crate) offset: u64,
    pub(crate) length: u64,
}

/// `zq_extent`.
#[repr(C)]
#[derive(Clone, Copy, Debug, Default)]
pub(crate) struct Extent {
    pub(crate) kind: u32,
    pub(crate) reserved: u32,
    pub(crate) guest_offset: u64,
    pub(crate) length: u64,
    pub(crate) offset: u64,
}

/// `zq_edit`.
#[repr(C)]
#[derive(Clone, Copy, Debug, Default)]
pub(crate) struct Edit {
    pub(crate) kind: u32,
    pub(crate) reserved: u32,
    pub(crate) index: u64,
    pub(crate) host_offset: u64,
}

unsafe extern "C" {
    fn zq_header_bytes(bytes: *const u8, length: usize, cluster_size: *mut usize) -> u32;
    fn zq_header_read(bytes: *const u8, length: usize, header: *mut Header) -> u32;
    fn zq_l1_entry(entry: u64, header: *const Header, l2_offset: *mut u64, copied: *mut u32)
    -> u32;
    fn zq_l2_entry(
        entry: u64,
        header: *const Header,
        guest_offset: u64,
        mapping: *mut Mapping,
    ) -> u32;
    fn zq_l2_check(
        bytes: *const u8,
        length: usize,
        header: *const Header,
        index: *mut usize,
    ) -> u32;
    fn zq_l2_extents(
        bytes: *const u8,
        length: usize,
        header: *const Header,
        first_guest_offset: u64,
        extents: *mut Extent,
        capacity: usize,
        count: *mut usize,
    ) -> u32;
    fn zq_l2_edit(
        bytes: *mut u8,
        length: usize,
        header: *const Header,
        edits: *const Edit,
        edit_count: usize,
        freed: *mut Clusters,
        freed_capacity: usize,
        freed_count: *mut usize,
        gained: *mut u64,
        gained_capacity: usize,
        gained_count: *mut usize,
        bad: *mut usize,
    ) -> u32;
    fn zq_refcounts_read(
        bytes: *const u8,
        length: usize,
        refcount_order: u32,
        first: usize,
        counters: *mut u64,
        count: usize,
    ) -> u32;
    fn zq_refcounts_settle(
        bytes: *mut u8,
        length: usize,
        refcount_order: u32,
        block_index: u64,
        freed: *const Clusters,
        freed_count: usize,
        gained: *const u64,
        gained_count: usize,
    ) -> u32;
    fn zq_image_lookup(
        bytes: *const u8,
        length: usize,
        guest_offset: u64,
        mapping: *mut Mapping,
    ) -> u32;
    fn zq_image_extents(
        bytes: *const u8,
        length: usize,
        from_offset: u64,
        extents: *mut Extent,
        capacity: usize,
        count: *mut usize,
    ) -> u32;
    fn zq_image_check(
        bytes: *const u8,
        length: usize,
        findings: *mut Finding,
        capacity: usize,
        count: *mut usize,
        totals: *mut CheckTotals,
    ) -> u32;
}

/// Returns the value if the number is 0, else the fault with this number.
fn outcome<T>(number: u32, value: T) -> Result<T, Fault> {
    Fault::from_number(number).map_or(Ok(value), Err)
}

pub(crate) fn header_bytes(bytes: &[u8]) -> Result<usize, Fault> {
    let mut size = 0;
    // SAFETY: the call passes its pointers as the module's comment says.
    let number = unsafe { zq_header_bytes(bytes.as_ptr(), bytes.len(), &mut size) };
    outcome(number, size)
}

pub(crate) fn header_read(bytes: &[u8]) -> Result<Header, Fault> {
    let mut header = Header::default();
    // SAFETY: the call passes its pointers as the module's comment says.
    let number = unsafe { zq_header_read(bytes.as_ptr(), bytes.len(), &mut header) };
    outcome(number, header)
}

pub(crate) fn l1_entry(entry: u64, header: &Header) -> Result<(u64, bool), Fault> {
    let (mut offset, mut copied) = (0, 0);
    // SAFETY: the call passes its pointers as the module's comment says.
    let number = unsafe { zq_l1_entry(entry, header, &mut offset, &mut copied) };
    outcome(number, (offset, copied != 0))
}

pub(crate) fn l2_entry(entry: u64, header: &Header, guest_offset: u64) -> Result<Mapping, Fault> {
    let mut mapping = Mapping::default();
    // SAFETY: the call passes its pointers as the module's comment says.
    let number = unsafe { zq_l2_entry(entry, header, guest_offset, &mut mapping) };
    outcome(number, mapping)
}

/// Returns the fault with the index of the first invalid entry. The index is 0 for faults other
/// than 18 and 19.
pub(crate) fn l2_check(bytes: &[u8], header: &Header) -> Result<(), (Fault, usize)> {
    let mut index = 0;
    // SAFETY: the call passes its pointers as the module's comment says.
    let number = unsafe { zq_l2_check(bytes.as_ptr(), bytes.len(), header, &mut index) };
    outcome(number, ()).map_err(|fault| (fault, index))
}

pub(crate) fn image_lookup(bytes: &[u8], guest_offset: u64) -> Result<Mapping, Fault> {
    let mut mapping = Mapping::default();
    // SAFETY: the call passes its pointers as the module's comment says.
    let number =
        unsafe { zq_image_lookup(bytes.as_ptr(), bytes.len(), guest_offset, &mut mapping) };
    outcome(number, mapping)
}

/// Returns the number of extents, at most as many as fit.
pub(crate) fn l2_extents(
    bytes: &[u8],
    header: &Header,
    first_guest_offset: u64,
    extents: &mut [Extent],
) -> Result<usize, Fault> {
    let (room, capacity) = (extents.as_mut_ptr(), extents.len());
    let mut count = 0;
    // SAFETY: the call passes its pointers as the module's comment says.
    let number = unsafe {
        zq_l2_extents(
            bytes.as_ptr(),
            bytes.len(),
            header,
            first_guest_offset,
            room,
            capacity,
            &mut count,
        )
    };
    outcome(number, count)
}

/// Returns the numbers of freed ranges and of gained clusters, or the fault, with the position of
/// the bad edit or the index of the invalid entry if it has one.
pub(crate) fn l2_edit(
    bytes: &mut [u8],
    header: &Header,
    edits: &[Edit],
    freed: &mut [Clusters],
    gained: &mut [u64],
) -> Result<(usize, usize), (Fault, Option<usize>)> {
    let (begin, length) = (bytes.as_mut_ptr(), bytes.len());
    let (mut freed_count, mut gained_count, mut bad) = (0, 0, usize::MAX);
    // SAFETY: the call passes its pointers as the module's comment says.
    let number = unsafe {
        zq_l2_edit(
            begin,
            length,
            header,
            edits.as_ptr(),
            edits.len(),
            freed.as_mut_ptr(),
            freed.len(),
            &mut freed_count,
            gained.as_mut_ptr(),
            gained.len(),
            &mut gained_count,
            &mut bad,
        )
    };
    let place = (bad != usize::MAX).then_some(bad);
    outcome(number, (freed_count, gained_count)).map_err(|fault| (fault, place))
}

/// Returns the number of extents, at most as many as fit, and the fault after them, if there is
/// one.
pub(crate) fn image_extents(
    bytes: &[u8],
    from_offset: u64,
    extents: &mut [Extent],
) -> (usize, Option<Fault>) {
    let (room, capacity) = (extents.as_mut_ptr(), extents.len());
    let mut count = 0;
    // SAFETY: the call passes its pointers as the module's comment says.
    let number = unsafe {
        zq_image_extents(
            bytes.as_ptr(),
            bytes.len(),
            from_offset,
            room,
            capacity,
            &mut count,
        )
    };
    (count, Fault::from_number(number))
}

pub(crate) fn refcounts_read(
    bytes: &[u8],
    order: u32,
    first: usize,
    counters: &mut [u64],
) -> Result<(), Fault> {
    let (places, count) = (counters.as_mut_ptr(), counters.len());
    // SAFETY: the call passes its pointers as the module's comment says.
    let number =
        unsafe { zq_refcounts_read(bytes.as_ptr(), bytes.len(), order, first, places, count) };
    outcome(number, ())
}

pub(crate) fn refcounts_settle(
    bytes: &mut [u8],
    order: u32,
    block_index: u64,
    freed: &[Clusters],
    gained: &[u64],
) -> Result<(), Fault> {
    let (begin, length) = (bytes.as_mut_ptr(), bytes.len());
    // SAFETY: the call passes its pointers as the module's comment says.
    let number = unsafe {
        zq_refcounts_settle(
            begin,
            length,
            order,
            block_index,
            freed.as_ptr(),
            freed.len(),
            gained.as_ptr(),
            gained.len(),
        )
    };
    outcome(number, ())
}

pub(crate) fn image_check(bytes: &[u8], findings: &mut [Finding]) -> Result<CheckTotals, Fault> {
    let (room, capacity) = (findings.as_mut_ptr(), findings.len());
    let (mut count, mut totals) = (0, CheckTotals::default());
    // SAFETY: the call passes its pointers as the module's comment says.
    let number = unsafe {
        zq_image_check(
            bytes.as_ptr(),
            bytes.len(),
            room,
            capacity,
            &mut count,
            &mut totals,
        )
    };
    outcome(number, totals)
}
