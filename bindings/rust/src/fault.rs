//! The faults that calls return.

use std::error::Error;
use std::fmt::{self, Display, Formatter};

/// Declares the faults by their names, numbers and sentences.
macro_rules! faults {
    ($($name:ident, $number:literal, $text:literal;)*) => {
        /// The reason why a call refuses. Each fault has a number, which is never used for another,
        /// and a sentence that says what must hold.
        ///
        /// [`Display`] prints the sentence. The doc comment of a call names the faults that it can
        /// return.
        ///
        /// ```
        /// use zaqulle::{Fault, header_bytes};
        ///
        /// let fault = header_bytes(&[0; 104]).unwrap_err();
        /// assert_eq!(fault, Fault::NotQcow2);
        /// assert_eq!(fault.number(), 1);
        /// assert_eq!(fault.to_string(), "not a qcow2 image: the magic must be 0x514649fb");
        /// ```
        #[derive(Clone, Copy, Debug, PartialEq, Eq, Hash)]
        #[non_exhaustive]
        pub enum Fault {
            $(
                #[doc = concat!("Fault ", $number, ": ", $text, ".")]
                $name,
            )*
            /// A fault of a later library by its number: this crate has no name for it.
            Unknown(u32),
        }

        impl Fault {
            /// All faults that have a name, by their numbers from 1 on.
            pub const NAMED: &[Fault] = &[$(Fault::$name),*];

            /// The fault's number, as the program `qmeta` prints it.
            #[must_use]
            pub fn number(self) -> u32 {
                match self {
                    $(Fault::$name => $number,)*
                    Fault::Unknown(number) => number,
                }
            }

            /// The fault with a number, or `None` for 0.
            #[must_use]
            pub fn from_number(number: u32) -> Option<Fault> {
                match number {
                    0 => None,
                    $($number => Some(Fault::$name),)*
                    _ => Some(Fault::Unknown(number)),
                }
            }
        }

        impl Display for Fault {
            fn fmt(&self, formatter: &mut Formatter<'_>) -> fmt::Result {
                match self {
                    $(Fault::$name => formatter.write_str($text),)*
                    Fault::Unknown(number) => write!(formatter, "a later library refuses this by fault {number}"),
                }
            }
        }
    };
}

faults! {
    NotQcow2, 1, "not a qcow2 image: the magic must be 0x514649fb";
    Version, 2, "the version must be 2 or 3";
    ClusterSize, 3, "cluster_bits must be from 9 to 21";
    HeaderShort, 4, "header_length must be at least 104";
    HeaderBig, 5, "the header must end within the first cluster";
    L1Unaligned, 6, "l1_table_offset must be a multiple of the cluster size";
    ReftableUnaligned, 7, "refcount_table_offset must be a multiple of the cluster size";
    RefcountWidth, 8, "refcount_order must be at most 6";
    BackingNameLong, 9, "backing_file_size must be at most 1023";
    BackingNamePlace, 10, "the backing file name must end within the first cluster";
    BackingNameText, 11, "the backing file name must be UTF-8";
    ExtensionsExceed, 12, "the header extensions must end within the first cluster";
    ExtensionText, 13, "a backing format or data file name in an extension must be UTF-8";
    FeatureNameCut, 14, "a feature name entry must have at least its type and its bit";
    FormatConflict, 15, "all backing format extensions must hold the same name";
    DataFileConflict, 16, "all external data file extensions must hold the same name";
    Incompatible, 17, "all incompatible features but an external data file (bit 2) must be clear";
    EntryReserved, 18, "the reserved bits of a table entry must be 0";
    EntryUnaligned, 19, "the offset in a table entry must be a multiple of the cluster size";
    TableTooBig, 20, "the table must have at most as many entries as its kind allows";
    TablePlace, 21, "a table or block must end at or below 2^56";
    NoOffset, 22, "a table or block must have a cluster to be written";
    NotPlaced, 23, "a table or block must have a cluster to be referred to";
    HeaderTooLong, 24, "the header with its names must fit the first cluster";
    NameTooLong, 25, "a backing file name must have at most 1023 bytes";
    FieldChanged, 26, "an image that is in use must keep what its header says";
    VersionNeeded, 27, "the image must have a later version for this";
    CannotGrow, 28, "a grown table must have at most as many entries as its kind allows";
    TooMany, 29, "a count of entries or clusters must fit the 32 bits of its header field";
    CounterRange, 30, "a refcount must stay from 0 to the largest value of its width";
    WrongLength, 31, "the buffer must have the length of the structure in it";
    BadEdit, 32, "each edit must name an entry of the table and a cluster that it can hold";
    BadStep, 33, "each step must name a counter of the block";
    Storage, 34, "the storage must answer each call, one failed";
    NoMemory, 35, "memory must be left for the call, none was";
    ExternalData, 36, "refcounts of data clusters must stand in the image, it has an external data file";
    Uncounted, 37, "all that refers to clusters must be read";
    Overlap, 38, "the uses of a cluster must not exclude each other, nobody knows which of them to believe";
    InUse, 39, "an image that is written must be used by nobody else, it is in use";
    Shared, 40, "an L2 table that is edited must have no other reference";
    L1Short, 41, "the L1 table must have an entry for each part of the disk, it has too few";
    Marked, 42, "an image that is changed must not be marked dirty or corrupt, it must be repaired first";
}

impl Error for Fault {}
