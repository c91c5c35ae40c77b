//! Checks of whole images.

use crate::{Fault, raw};

/// A wrong host cluster: its refcount isn't its number of references, or these exclude each other.
#[repr(C)]
#[derive(Clone, Copy, Debug, Default, PartialEq, Eq, Hash)]
pub struct Finding {
    kinds: u32,
    reserved: u32,
    /// The number of the cluster: its host offset divided by the cluster size.
    pub cluster: u64,
    /// Its refcount: 0 if no refcount block counts it.
    pub counter: u64,
    /// The number of references to it.
    pub uses: u64,
}

impl Finding {
    /// Whether the refcount is greater than the number of references: space is lost.
    #[must_use]
    pub fn is_leaked(&self) -> bool {
        self.kinds & 1 != 0
    }

    /// Whether the refcount is smaller than the number of references: a program may take the
    /// cluster for free, and overwrite it.
    #[must_use]
    pub fn is_missing(&self) -> bool {
        self.kinds & 2 != 0
    }

    /// Whether its references exclude each other, as those of guest data and of a table.
    #[must_use]
    pub fn is_shared(&self) -> bool {
        self.kinds & 4 != 0
    }
}

/// The numbers of wrong clusters and copied flags in an image.
#[repr(C)]
#[derive(Clone, Copy, Debug, Default, PartialEq, Eq, Hash)]
pub struct CheckTotals {
    /// Wrong clusters.
    pub findings: u64,
    /// Leaked clusters among them.
    pub leaked: u64,
    /// Missing clusters among them.
    pub missing: u64,
    /// Shared clusters among them.
    pub shared: u64,
    /// Copied flags that are set though the cluster's refcount isn't 1.
    pub false_flags: u64,
    /// Copied flags that aren't set though the refcount is 1 or the cluster has none.
    pub late_flags: u64,
}

impl CheckTotals {
    /// Whether nothing is wrong: all numbers are 0.
    #[must_use]
    pub fn is_consistent(&self) -> bool {
        self.findings == 0 && self.false_flags == 0 && self.late_flags == 0
    }
}

/// Checks an image by all its bytes: finds clusters whose refcount isn't their number of references
/// or whose references exclude each other, and wrong copied flags. Writes as many findings as fit
/// into `findings`, in the order of clusters, and returns the totals of the whole check. Elements
/// of `findings` after them are unchanged. Past its last byte the image reads as zeros, and
/// references to clusters there count like others. An image that is marked dirty or corrupt is
/// checked too: [`Header::is_dirty`](crate::Header::is_dirty) and
/// [`Header::is_corrupt`](crate::Header::is_corrupt) tell.
///
/// # Errors
///
/// A fault of the header (1 to 17); then [`Fault::Uncounted`] (37) for an image with snapshots,
/// bitmaps in use or keys of LUKS at an unknown place; then the first fault of its tables (18 to
/// 21); [`Fault::NoMemory`] (35).
///
/// After an error other than 35 `findings` is unchanged.
///
/// ```
/// use zaqulle::Finding;
/// # let path = "../../crates/qmeta/data/disk.qcow2";
/// let image = std::fs::read(path)?;
/// let mut findings = [Finding::default(); 16];
/// let totals = zaqulle::image_check(&image, &mut findings)?;
/// assert!(totals.is_consistent());
/// # Ok::<(), Box<dyn std::error::Error>>(())
/// ```
pub fn image_check(bytes: &[u8], findings: &mut [Finding]) -> Result<CheckTotals, Fault> {
    raw::image_check(bytes, findings)
}
