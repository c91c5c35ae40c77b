//! Lookups by the bytes of a whole image, which may be mapped memory.

use crate::{Fault, Mapping, raw};

/// Returns the mapping of a guest offset's cluster, by the bytes of a whole image. Past its last
/// byte the image reads as zeros. Ignores the size of the guest's disk.
///
/// # Errors
///
/// The first fault of the header, the L1 table and the L2 table (1 to 21); [`Fault::NoMemory`]
/// (35).
///
/// ```
/// # let path = "../../crates/qmeta/data/disk.qcow2";
/// let image = std::fs::read(path)?;
/// let mapping = zaqulle::image_lookup(&image, 0)?;
/// assert_eq!(mapping, zaqulle::Mapping::Data { offset: 0xa00, length: 512, copied: true });
/// # Ok::<(), Box<dyn std::error::Error>>(())
/// ```
pub fn image_lookup(bytes: &[u8], guest_offset: u64) -> Result<Mapping, Fault> {
    raw::image_lookup(bytes, guest_offset).map(Mapping::new)
}
