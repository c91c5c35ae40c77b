//! Extents of the guest's disk.

use crate::{Fault, Header, raw};

/// The content of an extent. The number is the offset of its first byte, in bytes.
#[derive(Clone, Copy, Debug, PartialEq, Eq, Hash)]
#[non_exhaustive]
pub enum Content {
    /// Data of the backing file, or zeros if there is none.
    Backing,
    /// Data in the data file, which is the image or its external data file.
    Data(u64),
    /// Zeros without clusters.
    Zeros,
    /// Zeros with allocated clusters of the data file.
    AllocatedZeros(u64),
    /// Compressed data, each cluster by itself.
    Compressed,
}

/// A part of the guest's disk with content of one kind.
#[derive(Clone, Copy, Debug, PartialEq, Eq, Hash)]
pub struct Extent {
    /// The guest offset of its first byte.
    pub start: u64,
    /// The length in bytes. Never 0.
    pub length: u64,
    /// The content.
    pub content: Content,
}

impl Extent {
    pub(crate) fn new(found: &raw::Extent) -> Self {
        let content = match found.kind {
            0 => Content::Backing,
            1 => Content::Data(found.offset),
            2 => Content::Zeros,
            3 => Content::AllocatedZeros(found.offset),
            4 => Content::Compressed,
            _ => unreachable!("an extent is of kind 0 to 4"),
        };
        Extent {
            start: found.guest_offset,
            length: found.length,
            content,
        }
    }
}

/// Joins the entries in the bytes of an L2 table, or of a part of one, into extents. The first
/// entry is that of the guest cluster at `first_guest_offset`. Each extent is as long as possible
/// within these bytes.
///
/// # Errors
///
/// [`Fault::WrongLength`] (31) if the bytes aren't whole entries or exceed a cluster, if the offset
/// isn't a multiple of the cluster size, or if a guest cluster would end at or past 2^64; then
/// [`Fault::EntryReserved`] (18) or [`Fault::EntryUnaligned`] (19) of the first invalid entry.
///
/// ```
/// use zaqulle::{Content, Extent};
/// # let path = "../../crates/qmeta/data/disk.qcow2";
/// let header = zaqulle::read_header(&std::fs::read(path)?)?;
/// // Data in the host clusters at 0x5000 and 0x5200, and zeros.
/// let numbers = [0x8000_0000_0000_5000_u64, 0x8000_0000_0000_5200, 1];
/// let bytes = numbers.map(u64::to_be_bytes).concat();
/// let extents = zaqulle::l2_extents(&bytes, &header, 0)?;
/// assert_eq!(extents, [
///     Extent { start: 0, length: 1024, content: Content::Data(0x5000) },
///     Extent { start: 1024, length: 512, content: Content::Zeros },
/// ]);
/// # Ok::<(), Box<dyn std::error::Error>>(())
/// ```
pub fn l2_extents(
    bytes: &[u8],
    header: &Header,
    first_guest_offset: u64,
) -> Result<Vec<Extent>, Fault> {
    // The call refuses more bytes than a cluster, so they need no room.
    let room = bytes.len().min(header.cluster_size()) / 8;
    let mut found = vec![raw::Extent::default(); room];
    let count = raw::l2_extents(bytes, &header.0, first_guest_offset, &mut found)?;
    Ok(found[..count].iter().map(Extent::new).collect())
}

/// The number of extents that one call asks for.
const ROOM: usize = 1024;

/// An iterator over the extents of an image, made by [`image_extents`].
#[derive(Clone, Debug)]
pub struct ImageExtents<'bytes> {
    bytes: &'bytes [u8],
    /// The guest offset where the next call goes on.
    offset: u64,
    /// The extents that were found and not yet returned, the last one first.
    found: Vec<Extent>,
    /// The rest after them: more extents, the end, or a fault and then the end.
    rest: Rest,
}

#[derive(Clone, Copy, Debug)]
enum Rest {
    Others,
    Fault(Fault),
    End,
}

/// Returns an iterator over the extents of the guest's disk from an offset on, by the bytes of a
/// whole image. Each extent is as long as possible. From the disk's end on there are none. Past its
/// last byte the image reads as zeros.
///
/// # Errors
///
/// The iterator returns a fault of the header, the L1 table or an L2 table (1 to 21), or
/// [`Fault::NoMemory`] (35), after the extents before it, and then ends.
///
/// ```
/// use zaqulle::{Content, Extent, Fault};
/// # let path = "../../crates/qmeta/data/disk.qcow2";
/// let image = std::fs::read(path)?;
/// let extents: Result<Vec<Extent>, Fault> = zaqulle::image_extents(&image, 0).collect();
/// let extents = extents?;
/// assert_eq!(extents[0], Extent { start: 0, length: 1024, content: Content::Data(0xa00) });
/// assert_eq!(extents.iter().map(|extent| extent.length).sum::<u64>(), 32768);
/// # Ok::<(), Box<dyn std::error::Error>>(())
/// ```
#[must_use]
pub fn image_extents(bytes: &[u8], from_offset: u64) -> ImageExtents<'_> {
    ImageExtents {
        bytes,
        offset: from_offset,
        found: Vec::new(),
        rest: Rest::Others,
    }
}

impl ImageExtents<'_> {
    /// Finds the next extents.
    fn find(&mut self) {
        let mut found = vec![raw::Extent::default(); ROOM];
        let (count, fault) = raw::image_extents(self.bytes, self.offset, &mut found);
        self.rest = match fault {
            Some(fault) => Rest::Fault(fault),
            None if count < ROOM => Rest::End,
            None => Rest::Others,
        };
        if let Some(last) = found[..count].last() {
            self.offset = last.guest_offset + last.length;
        }
        self.found
            .extend(found[..count].iter().rev().map(Extent::new));
    }
}

impl Iterator for ImageExtents<'_> {
    type Item = Result<Extent, Fault>;

    fn next(&mut self) -> Option<Self::Item> {
        if self.found.is_empty() && matches!(self.rest, Rest::Others) {
            self.find();
        }
        if let Some(extent) = self.found.pop() {
            return Some(Ok(extent));
        }
        match std::mem::replace(&mut self.rest, Rest::End) {
            Rest::Fault(fault) => Some(Err(fault)),
            Rest::Others | Rest::End => None,
        }
    }
}

impl std::iter::FusedIterator for ImageExtents<'_> {}
