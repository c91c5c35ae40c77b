//! Reads, edits and checks qcow2 metadata in bytes that the program has read or mapped itself.
//!
//! This is the library Zaqulle for Rust: safe calls of `libzaqulle.a`, whose functions are proved
//! to return what `zaqulle.h` says. This crate is tested, not proved. No call reads or writes a
//! file, and none prints. There is no global state, so all calls are thread-safe. Offsets and
//! lengths are in bytes. Tables hold big-endian numbers of eight bytes; an entry is passed as a
//! number.
//!
//! | To | Call |
//! |---|---|
//! | read a header | [`header_bytes`], [`read_header`] |
//! | decode an entry of a table | [`l1_entry`], [`l2_entry`], [`first_bad_l2_entry`] |
//! | join the entries of an L2 table into extents | [`l2_extents`] |
//! | edit an L2 table | [`edit_l2_table`] |
//! | read and update refcounts of a block | [`read_refcounts`], [`settle_refcounts`] |
//! | look up a guest offset in a whole image | [`image_lookup`] |
//! | list the extents of a whole image | [`image_extents`] |
//! | check a whole image | [`image_check`] |
//!
//! ```
//! # let path = "../../crates/qmeta/data/disk.qcow2";
//! use zaqulle::Mapping;
//!
//! let image = std::fs::read(path)?;
//! if let Mapping::Data { offset, .. } = zaqulle::image_lookup(&image, 0)? {
//!     let begin = usize::try_from(offset)?;
//!     println!("the guest's first sector: {:?}", &image[begin..begin + 512]);
//! }
//! # Ok::<(), Box<dyn std::error::Error>>(())
//! ```
//!
//! # The library
//!
//! `scripts/build-c-library` builds the library, and `scripts/install` installs it. This crate
//! links it from the folder that `ZAQULLE_LIB_DIR` names, else from the crate's repository, else
//! from where `pkg-config` finds it, else from `/usr/local/lib` or `/usr/lib`.
//!
//! All unsafe code is in one module, `raw`, which passes slices on as pointers with their lengths.

mod check;
mod edits;
mod entries;
mod extents;
mod fault;
mod header;
mod image;
mod raw;
mod refcounts;

pub use check::{CheckTotals, Finding, image_check};
pub use edits::{Edit, Outcome, RefusedEdits, edit_l2_table};
pub use entries::{BadEntry, L2Pointer, Mapping, first_bad_l2_entry, l1_entry, l2_entry};
pub use extents::{Content, Extent, ImageExtents, image_extents, l2_extents};
pub use fault::Fault;
pub use header::{Header, header_bytes, read_header};
pub use image::image_lookup;
pub use refcounts::{Clusters, read_refcounts, settle_refcounts};
