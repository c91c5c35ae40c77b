//! The meaning of L1 and L2 entries.

use crate::{Fault, Header, raw};

/// The L2 table that an L1 entry names.
#[derive(Clone, Copy, Debug, PartialEq, Eq, Hash)]
pub struct L2Pointer {
    /// The host offset of the L2 table, which has one cluster.
    pub offset: u64,
    /// The entry's copied flag: whether it says that the table's refcount is exactly one.
    pub copied: bool,
}

/// The content of a guest cluster. Offsets and lengths are in bytes.
#[derive(Clone, Copy, Debug, PartialEq, Eq, Hash)]
#[non_exhaustive]
pub enum Mapping {
    /// Data of the backing file, or zeros if there is none.
    Backing {
        /// The offset of the cluster in the backing file.
        offset: u64,
        /// The cluster size.
        length: u64,
    },
    /// Data in the data file, which is the image or its external data file.
    Data {
        /// The offset of the cluster in the data file.
        offset: u64,
        /// The cluster size.
        length: u64,
        /// The copied flag: whether the entry says that the cluster's refcount is exactly one.
        copied: bool,
    },
    /// Zeros without a cluster.
    Zeros,
    /// Zeros with an allocated cluster of the data file.
    AllocatedZeros {
        /// The offset of the cluster in the data file.
        offset: u64,
        /// The cluster size.
        length: u64,
        /// The copied flag: whether the entry says that the cluster's refcount is exactly one.
        copied: bool,
    },
    /// Compressed data in the image.
    Compressed {
        /// The offset of the data in the image.
        offset: u64,
        /// An upper bound of the data's length.
        length: u64,
    },
}

impl Mapping {
    pub(crate) fn new(found: raw::Mapping) -> Self {
        let raw::Mapping {
            kind,
            copied,
            offset,
            length,
        } = found;
        let copied = copied != 0;
        match kind {
            0 => Mapping::Backing { offset, length },
            1 => Mapping::Data {
                offset,
                length,
                copied,
            },
            2 => Mapping::Zeros,
            3 => Mapping::AllocatedZeros {
                offset,
                length,
                copied,
            },
            4 => Mapping::Compressed { offset, length },
            _ => unreachable!("a mapping is of kind 0 to 4"),
        }
    }
}

/// An invalid entry of an L2 table.
#[derive(Clone, Copy, Debug, PartialEq, Eq, Hash)]
pub struct BadEntry {
    /// The index of the entry; 0 is the first.
    pub index: usize,
    /// The fault of the entry: [`Fault::EntryReserved`] or [`Fault::EntryUnaligned`].
    pub fault: Fault,
}

/// Decodes an L1 entry: returns the L2 table that it names, if it names one.
///
/// # Errors
///
/// [`Fault::EntryReserved`] (18), [`Fault::EntryUnaligned`] (19).
///
/// ```
/// # let path = "../../crates/qmeta/data/disk.qcow2";
/// let image = std::fs::read(path)?;
/// let header = zaqulle::read_header(&image)?;
/// let begin = usize::try_from(header.l1_offset())?;
/// let entry = u64::from_be_bytes(image[begin..begin + 8].try_into()?);
/// let l2_table = zaqulle::l1_entry(entry, &header)?.expect("a first L2 table");
/// assert!(l2_table.copied);
/// # Ok::<(), Box<dyn std::error::Error>>(())
/// ```
pub fn l1_entry(entry: u64, header: &Header) -> Result<Option<L2Pointer>, Fault> {
    let (offset, copied) = raw::l1_entry(entry, &header.0)?;
    Ok((offset != 0).then_some(L2Pointer { offset, copied }))
}

/// Decodes the L2 entry of a guest offset's cluster. The mapping is that of the whole cluster.
///
/// # Errors
///
/// [`Fault::EntryReserved`] (18), [`Fault::EntryUnaligned`] (19).
///
/// ```
/// use zaqulle::Mapping;
/// # let path = "../../crates/qmeta/data/disk.qcow2";
/// let header = zaqulle::read_header(&std::fs::read(path)?)?;
/// // An entry with the copied flag and the host cluster at 0x5000.
/// let mapping = zaqulle::l2_entry(0x8000_0000_0000_5000, &header, 0)?;
/// assert_eq!(mapping, Mapping::Data { offset: 0x5000, length: 512, copied: true });
/// # Ok::<(), Box<dyn std::error::Error>>(())
/// ```
pub fn l2_entry(entry: u64, header: &Header, guest_offset: u64) -> Result<Mapping, Fault> {
    raw::l2_entry(entry, &header.0, guest_offset).map(Mapping::new)
}

/// Returns the first invalid entry in the bytes of an L2 table, or of a part of one, if there is
/// one.
///
/// # Errors
///
/// [`Fault::WrongLength`] (31) if the number of bytes isn't a multiple of 8.
///
/// ```
/// use zaqulle::{BadEntry, Fault};
/// # let path = "../../crates/qmeta/data/disk.qcow2";
/// let header = zaqulle::read_header(&std::fs::read(path)?)?;
/// let mut bytes = [0; 24];
/// assert_eq!(zaqulle::first_bad_l2_entry(&bytes, &header), Ok(None));
/// bytes[15] = 2; // a reserved bit of the second number
/// let bad = BadEntry { index: 1, fault: Fault::EntryReserved };
/// assert_eq!(zaqulle::first_bad_l2_entry(&bytes, &header), Ok(Some(bad)));
/// # Ok::<(), Box<dyn std::error::Error>>(())
/// ```
pub fn first_bad_l2_entry(bytes: &[u8], header: &Header) -> Result<Option<BadEntry>, Fault> {
    match raw::l2_check(bytes, &header.0) {
        Ok(()) => Ok(None),
        Err((fault @ (Fault::EntryReserved | Fault::EntryUnaligned), index)) => {
            Ok(Some(BadEntry { index, fault }))
        }
        Err((fault, _)) => Err(fault),
    }
}
