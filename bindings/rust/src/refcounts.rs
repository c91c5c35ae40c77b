//! The refcounts in the bytes of a refcount block.

use crate::{Fault, raw};

/// Consecutive host clusters.
#[repr(C)]
#[derive(Clone, Copy, Debug, Default, PartialEq, Eq, Hash)]
pub struct Clusters {
    /// The number of the first cluster: its host offset divided by the cluster size.
    pub first: u64,
    /// The number of clusters.
    pub count: u64,
}

/// Reads refcounts from the bytes of a whole refcount block into all of `counters`, from index
/// `first` on. A refcount has `1 << refcount_order` bits.
///
/// # Errors
///
/// [`Fault::RefcountWidth`] (8) for an order past 6; then [`Fault::WrongLength`] (31) if the number
/// of bytes is no cluster size; then [`Fault::BadStep`] (33) for refcounts past the block's end.
///
/// After an error `counters` is unchanged.
///
/// ```
/// let mut block = vec![0; 512];
/// block[..4].copy_from_slice(&[0, 1, 0, 7]);
/// let mut counters = [0; 2];
/// zaqulle::read_refcounts(&block, 4, 0, &mut counters)?;
/// assert_eq!(counters, [1, 7]);
/// # Ok::<(), zaqulle::Fault>(())
/// ```
pub fn read_refcounts(
    bytes: &[u8],
    refcount_order: u32,
    first: usize,
    counters: &mut [u64],
) -> Result<(), Fault> {
    raw::refcounts_read(bytes, refcount_order, first, counters)
}

/// Updates the refcounts in the bytes of a whole refcount block after edits of L2 tables: adds one
/// for each time that `gained` names a cluster, and subtracts one for each element of `freed` that
/// contains it. Skips clusters that other blocks count. `block_index` is the block's index in the
/// refcount table.
///
/// The clusters of an external data file have no refcounts: don't pass them.
///
/// # Errors
///
/// [`Fault::RefcountWidth`] (8) for an order past 6; then [`Fault::WrongLength`] (31) if the number
/// of bytes is no cluster size; then [`Fault::CounterRange`] (30) if a refcount plus its gains
/// exceeds the largest value of its width, or is less than its losses; [`Fault::NoMemory`] (35).
///
/// After an error `bytes` is unchanged.
///
/// ```
/// use zaqulle::Clusters;
/// let mut block = vec![0; 512];
/// block[..4].copy_from_slice(&[0, 1, 0, 7]);
/// zaqulle::settle_refcounts(&mut block, 4, 0, &[Clusters { first: 0, count: 2 }], &[2])?;
/// assert_eq!(block[..6], [0, 0, 0, 6, 0, 1]);
/// # Ok::<(), zaqulle::Fault>(())
/// ```
pub fn settle_refcounts(
    bytes: &mut [u8],
    refcount_order: u32,
    block_index: u64,
    freed: &[Clusters],
    gained: &[u64],
) -> Result<(), Fault> {
    raw::refcounts_settle(bytes, refcount_order, block_index, freed, gained)
}
