//! Edits of L2 tables, and the references that clusters lose and gain by them.

use std::error::Error;
use std::fmt::{self, Display, Formatter};

use crate::{Clusters, Fault, Header, raw};

/// A change of the content of one guest cluster. The index is that of its entry in the table; 0 is
/// the first.
#[derive(Clone, Copy, Debug, PartialEq, Eq, Hash)]
pub enum Edit {
    /// Data in a host cluster without another reference. The call doesn't check that there is none.
    Map {
        /// The index of its entry.
        index: u64,
        /// The offset of the host cluster, in bytes.
        host_offset: u64,
    },
    /// Zeros. With `keep_allocation` an entry keeps its host cluster, but compressed data is still
    /// freed.
    Zero {
        /// The index of its entry.
        index: u64,
        /// Whether an entry keeps its host cluster.
        keep_allocation: bool,
    },
    /// Data of the backing file, or zeros if there is none.
    Discard {
        /// The index of its entry.
        index: u64,
    },
}

impl Edit {
    fn fields(&self) -> raw::Edit {
        let (kind, index, host_offset) = match *self {
            Edit::Map { index, host_offset } => (1, index, host_offset),
            Edit::Zero {
                index,
                keep_allocation,
            } => (if keep_allocation { 3 } else { 2 }, index, 0),
            Edit::Discard { index } => (4, index, 0),
        };
        raw::Edit {
            kind,
            reserved: 0,
            index,
            host_offset,
        }
    }
}

/// The references that clusters lost and gained, in the order of the edits.
/// [`settle_refcounts`](crate::settle_refcounts) takes both lists.
///
/// With an external data file, only the clusters of compressed data are clusters of the image.
#[derive(Clone, Debug, Default, PartialEq, Eq, Hash)]
pub struct Outcome {
    /// The clusters that lost a reference each.
    pub freed: Vec<Clusters>,
    /// The numbers of the clusters that gained a reference.
    pub gained: Vec<u64>,
}

/// The refusal of a list of edits.
#[derive(Clone, Copy, Debug, PartialEq, Eq, Hash)]
pub struct RefusedEdits {
    /// The fault.
    pub fault: Fault,
    /// For [`Fault::BadEdit`] the position of the first bad edit, for the fault of an entry its
    /// index.
    pub place: Option<usize>,
}

impl Display for RefusedEdits {
    fn fmt(&self, formatter: &mut Formatter<'_>) -> fmt::Result {
        Display::fmt(&self.fault, formatter)
    }
}

impl Error for RefusedEdits {}

/// Makes edits in the bytes of a whole L2 table, one after another, all or none. Returns the
/// references that clusters lost and gained.
///
/// A crash only leaks clusters if you write the raised refcounts first, then the table, then the
/// lowered refcounts, with an fsync after each.
///
/// # Errors
///
/// [`Fault::VersionNeeded`] (27) for zeros in an image of version 2; then [`Fault::Marked`] (42) if
/// the image is marked dirty or corrupt; then [`Fault::WrongLength`] (31) if the number of bytes
/// isn't the cluster size; then [`Fault::EntryReserved`] (18) or [`Fault::EntryUnaligned`] (19) of
/// the first invalid entry; then [`Fault::BadEdit`] (32) of the first edit past the table's end, or
/// to a host offset that isn't a multiple of the cluster size or that an entry can't hold;
/// [`Fault::NoMemory`] (35).
///
/// After an error `bytes` is unchanged.
///
/// ```
/// use zaqulle::{Clusters, Edit};
/// # let path = "../../crates/qmeta/data/disk.qcow2";
/// let header = zaqulle::read_header(&std::fs::read(path)?)?;
/// // Data in the host cluster at 0xa00, and then in cluster 7.
/// let mut table = [0; 512];
/// table[..8].copy_from_slice(&0x8000_0000_0000_0a00_u64.to_be_bytes());
/// let edits = [Edit::Map { index: 0, host_offset: 7 * 512 }];
/// let outcome = zaqulle::edit_l2_table(&mut table, &header, &edits)?;
/// assert_eq!(table[..8], 0x8000_0000_0000_0e00_u64.to_be_bytes());
/// assert_eq!((outcome.freed, outcome.gained), (vec![Clusters { first: 5, count: 1 }], vec![7]));
/// # Ok::<(), Box<dyn std::error::Error>>(())
/// ```
pub fn edit_l2_table(
    bytes: &mut [u8],
    header: &Header,
    edits: &[Edit],
) -> Result<Outcome, RefusedEdits> {
    let fields: Vec<raw::Edit> = edits.iter().map(Edit::fields).collect();
    let mut freed = vec![Clusters::default(); edits.len()];
    let mut gained = vec![0; edits.len()];
    let (freed_count, gained_count) =
        raw::l2_edit(bytes, &header.0, &fields, &mut freed, &mut gained)
            .map_err(|(fault, place)| RefusedEdits { fault, place })?;
    freed.truncate(freed_count);
    gained.truncate(gained_count);
    Ok(Outcome { freed, gained })
}
