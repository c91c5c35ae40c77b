//! The header in the first cluster of an image.

use crate::{Fault, raw};

/// Returns the cluster size, 512 bytes to 2 MiB, from the first 104 bytes of an image. More bytes
/// may follow. [`read_header`] needs that many bytes: the first cluster.
///
/// # Errors
///
/// [`Fault::WrongLength`] (31) for fewer than 104 bytes, then [`Fault::NotQcow2`] (1),
/// [`Fault::Version`] (2), [`Fault::ClusterSize`] (3).
///
/// ```
/// # let mut image = vec![0; 1 << 16];
/// # image[..8].copy_from_slice(b"QFI\xfb\0\0\0\x03");
/// # image[20..24].copy_from_slice(&16_u32.to_be_bytes());
/// // The first bytes of an image with clusters of 64 KiB.
/// let first_bytes = &image[..104];
/// assert_eq!(zaqulle::header_bytes(first_bytes)?, 65536);
/// # Ok::<(), zaqulle::Fault>(())
/// ```
pub fn header_bytes(first_bytes: &[u8]) -> Result<usize, Fault> {
    raw::header_bytes(first_bytes)
}

/// Decodes the header of an image from the bytes of its first cluster. More bytes may follow. If
/// the image is shorter, append zeros.
///
/// # Errors
///
/// Those of [`header_bytes`]; then [`Fault::WrongLength`] (31) for fewer bytes than the cluster
/// has; then one of [`Fault::HeaderShort`] (4) to [`Fault::Incompatible`] (17), by the first
/// condition of the format that the header breaks; [`Fault::NoMemory`] (35).
///
/// ```
/// # let path = "../../crates/qmeta/data/disk.qcow2";
/// let image = std::fs::read(path)?;
/// let header = zaqulle::read_header(&image)?;
/// assert_eq!(header.version(), 3);
/// assert_eq!(header.cluster_size(), 512);
/// assert_eq!(header.backing_name(&image), None);
/// # Ok::<(), Box<dyn std::error::Error>>(())
/// ```
pub fn read_header(bytes: &[u8]) -> Result<Header, Fault> {
    raw::header_read(bytes).map(Header)
}

/// The header of an image. Only [`read_header`] makes one, so it is valid.
#[derive(Clone, Copy, Debug, PartialEq, Eq, Hash)]
pub struct Header(pub(crate) raw::Header);

impl Header {
    /// The version, 2 or 3. In version 2 the refcount order is 4, all features are 0, and only the
    /// backing file may have a name.
    #[must_use]
    pub fn version(&self) -> u32 {
        self.0.version
    }

    /// The binary logarithm of the cluster size in bytes, from 9 to 21.
    #[must_use]
    pub fn cluster_bits(&self) -> u32 {
        self.0.cluster_bits
    }

    /// The cluster size in bytes.
    #[must_use]
    pub fn cluster_size(&self) -> usize {
        1 << self.0.cluster_bits
    }

    /// The number of entries in an L2 table.
    #[must_use]
    pub fn l2_entries(&self) -> usize {
        self.cluster_size() / 8
    }

    /// The binary logarithm of a refcount's width in bits, from 0 to 6.
    #[must_use]
    pub fn refcount_order(&self) -> u32 {
        self.0.refcount_order
    }

    /// The number of refcounts in a refcount block.
    #[must_use]
    pub fn block_entries(&self) -> usize {
        (self.cluster_size() * 8) >> self.0.refcount_order
    }

    /// The kind of encryption, 0 for none.
    #[must_use]
    pub fn crypt_method(&self) -> u32 {
        self.0.crypt_method
    }

    /// The size of the guest's disk in bytes.
    #[must_use]
    pub fn size(&self) -> u64 {
        self.0.size
    }

    /// The host offset of the L1 table, a multiple of the cluster size.
    #[must_use]
    pub fn l1_offset(&self) -> u64 {
        self.0.l1_offset
    }

    /// The number of entries in the L1 table.
    #[must_use]
    pub fn l1_entries(&self) -> u32 {
        self.0.l1_entries
    }

    /// The host offset of the refcount table, a multiple of the cluster size.
    #[must_use]
    pub fn reftable_offset(&self) -> u64 {
        self.0.reftable_offset
    }

    /// The number of clusters in the refcount table.
    #[must_use]
    pub fn reftable_clusters(&self) -> u32 {
        self.0.reftable_clusters
    }

    /// Whether the image is marked dirty: refcounts may be wrong, as a program stopped before it had
    /// written all of them. [`edit_l2_table`](crate::edit_l2_table) refuses such an image.
    #[must_use]
    pub fn is_dirty(&self) -> bool {
        self.has_feature(1)
    }

    /// Whether the image is marked corrupt: any structure may be wrong, as a program has found one that
    /// is. [`edit_l2_table`](crate::edit_l2_table) refuses such an image.
    #[must_use]
    pub fn is_corrupt(&self) -> bool {
        self.has_feature(2)
    }

    /// Whether guest data lies in an external data file.
    #[must_use]
    pub fn has_external_data_file(&self) -> bool {
        self.has_feature(4)
    }

    /// Whether compressed data is compressed by zstd, and not by zlib.
    #[must_use]
    pub fn is_zstd(&self) -> bool {
        self.has_feature(8)
    }

    /// Whether the image has the incompatible feature of this mask.
    fn has_feature(&self, mask: u64) -> bool {
        self.0.incompatible_features & mask != 0
    }

    /// The features that a program may ignore, as bits.
    #[must_use]
    pub fn compatible_features(&self) -> u64 {
        self.0.compatible_features
    }

    /// The features that a program clears if it writes to the image and doesn't know them, as bits.
    #[must_use]
    pub fn autoclear_features(&self) -> u64 {
        self.0.autoclear_features
    }

    /// The host offset of the snapshot table.
    #[must_use]
    pub fn snapshots_offset(&self) -> u64 {
        self.0.snapshots_offset
    }

    /// The number of snapshots.
    #[must_use]
    pub fn snapshots(&self) -> u32 {
        self.0.snapshots
    }

    /// The backing file's name, if there is one. Takes the bytes that the header was read from.
    #[must_use]
    pub fn backing_name<'bytes>(&self, bytes: &'bytes [u8]) -> Option<&'bytes str> {
        text(self.0.backing_name, bytes)
    }

    /// The name of the backing file's format, if there is one. Takes the bytes that the header was
    /// read from.
    #[must_use]
    pub fn backing_format<'bytes>(&self, bytes: &'bytes [u8]) -> Option<&'bytes str> {
        text(self.0.backing_format, bytes)
    }

    /// The name of the external data file, if there is one. Takes the bytes that the header was
    /// read from.
    #[must_use]
    pub fn data_file<'bytes>(&self, bytes: &'bytes [u8]) -> Option<&'bytes str> {
        text(self.0.data_file, bytes)
    }
}

/// The text of a name, in the bytes that the header was read from. Other bytes may give any text,
/// or none.
fn text(name: raw::Name, bytes: &[u8]) -> Option<&str> {
    let begin = usize::try_from(name.offset)
        .ok()
        .filter(|&offset| offset != 0)?;
    let end = begin.checked_add(usize::try_from(name.length).ok()?)?;
    std::str::from_utf8(bytes.get(begin..end)?).ok()
}
