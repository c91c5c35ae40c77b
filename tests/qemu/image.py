"""The reader of qcow2 images: the header, the tables, the refcounts, and compressed data.

It follows docs/FORMAT.md. Offsets and lengths are in bytes. Clusters are numbers: those of the file are host clusters,
those of the disk guest clusters. Tables and refcounts keep only values other than 0.
"""

import re
import struct
import zlib
from array import array
from collections import Counter
from dataclasses import dataclass
from functools import cached_property
from typing import NamedTuple

from .faults import ENTRY_RESERVED, ENTRY_UNALIGNED

MAGIC = b"QFI\xfb"

# Bits of table entries: the copied flag, compressed data, zeros, and a host offset.
COPIED, COMPRESSED, ZERO = 1 << 63, 1 << 62, 1
OFFSET = (1 << 56) - 512

# The greatest end of a table or of compressed data in the file.
GREATEST_END = 1 << 56

# The bytes of a table entry, and the unit of compressed data's length and of disks' writes.
ENTRY_SIZE, SECTOR = 8, 512

# The fields of a header after its magic number, by their names in the standard.
FIELDS = struct.Struct(">4sIQIIQIIQQIIQ")
FIELD_NAMES = ("version", "backing_file_offset", "backing_file_size", "cluster_bits", "size", "crypt_method")
FIELD_NAMES += ("l1_size", "l1_table_offset", "refcount_table_offset", "refcount_table_clusters")
FIELD_NAMES += ("nb_snapshots", "snapshots_offset")

# Those that version 3 adds, before the header's length, and that length.
MORE_FIELDS = struct.Struct(">QQQII")
MORE_NAMES = ("incompatible_features", "compatible_features", "autoclear_features", "refcount_order")
HEADER_LENGTH = FIELDS.size + MORE_FIELDS.size

# The bytes of a set of features, and the places of the incompatible and of the autoclear ones in the header.
FEATURES_LENGTH = 8
INCOMPATIBLE_OFFSET, AUTOCLEAR_OFFSET = FIELDS.size, FIELDS.size + 2 * FEATURES_LENGTH

# The incompatible features of an image that is marked dirty or corrupt.
DIRTY, CORRUPT = 1 << 0, 1 << 1

# The incompatible feature of an external data file, and the autoclear feature by which that file is the plain disk.
EXTERNAL_DATA, RAW_DATA = 1 << 2, 1 << 1

# The autoclear feature of bitmaps that agree with the disk.
BITMAPS_AGREE = 1 << 0

# The encryption method whose keys lie in clusters that an extension names.
LUKS = 2

# The types of header extensions, and their type and length.
BACKING_FORMAT, DATA_FILE = b"\xe2\x79\x2a\xca", b"DATA"
BITMAPS, ENCRYPTION = b"\x23\x85\x28\x75", b"\x05\x37\xbe\x77"
EXTENSION = struct.Struct(">4sI")

# An extension's data are padded to a multiple of this many bytes.
EXTENSION_UNIT = 8

# The number of table entries that are read at once.
PIECE = 512


class Refused(Exception):
    """The fault, by its number, that refuses an image."""

    def __init__(self, fault):
        super().__init__(f"the image is refused by fault {fault}")
        self.fault = fault


@dataclass(frozen=True)
class Geometry:
    """The sizes of an image's parts, by cluster bits and refcount order."""

    cluster_bits: int
    refcount_order: int = 4

    @property
    def cluster_size(self):
        """The size of a cluster in bytes."""
        return 1 << self.cluster_bits

    @property
    def table_entries(self):
        """The number of entries of a table of one cluster, such as an L2 table."""
        return self.cluster_size // ENTRY_SIZE

    @property
    def mapped_by_table(self):
        """The number of bytes of the disk that an L2 table maps."""
        return self.table_entries * self.cluster_size

    @property
    def refcount_bits(self):
        """The number of bits of a refcount."""
        return 1 << self.refcount_order

    @property
    def block_refcounts(self):
        """The number of refcounts in a refcount block."""
        return self.cluster_size * 8 >> self.refcount_order

    @property
    def greatest_refcount(self):
        """The largest refcount."""
        return (1 << self.refcount_bits) - 1

    def clusters_of(self, length):
        """The number of clusters that these bytes need, if they begin with one."""
        return -(-length // self.cluster_size)


@dataclass(frozen=True)
class Header(Geometry):
    """The header of an image. The features are 0 in version 2."""

    version: int = 3
    backing_file_offset: int = 0
    backing_file_size: int = 0
    size: int = 0
    crypt_method: int = 0
    l1_size: int = 0
    l1_table_offset: int = 0
    refcount_table_offset: int = 0
    refcount_table_clusters: int = 0
    nb_snapshots: int = 0
    snapshots_offset: int = 0
    incompatible_features: int = 0
    compatible_features: int = 0
    autoclear_features: int = 0

    @classmethod
    def unpack(cls, stored):
        """The header in these first bytes of an image."""
        fields = dict(zip(FIELD_NAMES, FIELDS.unpack_from(stored)[1:]))
        if fields["version"] > 2:
            fields.update(zip(MORE_NAMES, MORE_FIELDS.unpack_from(stored, FIELDS.size)))
        return cls(**fields)

    def pack(self):
        """The bytes of the header, without extensions."""
        stored = FIELDS.pack(MAGIC, *(getattr(self, name) for name in FIELD_NAMES))
        more = (getattr(self, name) for name in MORE_NAMES)
        return stored + MORE_FIELDS.pack(*more, HEADER_LENGTH) if self.version > 2 else stored

    @property
    def is_external(self):
        """Whether guest data lies in an external data file, whose clusters have no refcounts."""
        return self.incompatible_features & EXTERNAL_DATA != 0

    @property
    def is_dirty(self):
        """Whether the image is marked dirty."""
        return self.incompatible_features & DIRTY != 0

    @property
    def is_corrupt(self):
        """Whether the image is marked corrupt."""
        return self.incompatible_features & CORRUPT != 0

    @property
    def guest_clusters(self):
        """The number of guest clusters of the disk, which may end within the last."""
        return self.clusters_of(self.size)

    @property
    def l1_needed(self):
        """The number of L1 entries that the disk needs."""
        return -(-self.size // self.mapped_by_table)

    @property
    def is_l1_short(self):
        """Whether the L1 table has too few entries for the disk."""
        return self.l1_size < self.l1_needed


class Entry(NamedTuple):
    """A table entry that isn't 0: its index, its bits, and the bytes that it refers to, none if the length is 0."""

    index: int
    bits: int
    offset: int
    length: int


class Image:
    """An image by its bytes, without the tables of snapshots.

    The first access to a part reads it, and keeps it. `read` reads all of them.
    """

    PARTS = ("l1_table", "refcount_blocks", "l2_tables", "refcounts")

    def __init__(self, path):
        self.path = path
        with open(path, "rb") as file:
            self.length = file.seek(0, 2)
        self.header = Header.unpack(self.bytes_at(0, HEADER_LENGTH))

    def read(self):
        """Reads all parts as they are now, and returns the image."""
        for part in self.PARTS:
            getattr(self, part)
        return self

    def bytes_at(self, offset, length):
        """Bytes of the file. Past its end they are zeros."""
        with open(self.path, "rb") as file:
            file.seek(offset)
            return file.read(length).ljust(length, b"\0")

    @cached_property
    def extensions(self):
        """The types and the data of the header extensions, which version 2 doesn't have."""
        found, (place,) = [], struct.unpack(">I", self.bytes_at(HEADER_LENGTH - 4, 4))
        while self.header.version > 2 and place + EXTENSION.size <= self.header.cluster_size:
            kind, length = EXTENSION.unpack(self.bytes_at(place, EXTENSION.size))
            if kind == bytes(len(kind)):
                break
            found.append((kind, self.bytes_at(place + EXTENSION.size, length)))
            place += EXTENSION.size + -(-length // EXTENSION_UNIT) * EXTENSION_UNIT
        return found

    # Tables

    @cached_property
    def l1_table(self):
        """The entries of the L1 table."""
        return self.entries_at(self.header.l1_table_offset, self.header.l1_size, self.l1_entry)

    @cached_property
    def refcount_blocks(self):
        """The host offset of each refcount block, by its index in the refcount table."""
        count = self.header.refcount_table_clusters * self.header.table_entries
        entries = self.entries_at(self.header.refcount_table_offset, count, self.refcount_table_entry)
        return {entry.index: entry.offset for entry in entries}

    @cached_property
    def l2_tables(self):
        """The entries of each L2 table, by its host offset."""
        count = self.header.table_entries
        return {offset: self.entries_at(offset, count, self.l2_entry) for offset in self.l2_offsets()}

    def l2_offsets(self):
        """The host offsets of L2 tables, each once, in the order of the L1 table."""
        return list({entry.offset: None for entry in self.l1_table if entry.length})

    def entries_at(self, offset, count, read):
        """The entries of a table that aren't 0. Skips pieces of zeros."""
        stored, entries = self.bytes_at(offset, ENTRY_SIZE * count), []
        for first in range(0, count, PIECE):
            piece = stored[ENTRY_SIZE * first : ENTRY_SIZE * (first + PIECE)]
            if piece != bytes(len(piece)):
                numbers = array("Q", piece)
                numbers.byteswap()
                entries += [read(first + index, number) for index, number in enumerate(numbers) if number]
        return entries

    def l1_entry(self, index, bits):
        """An entry of the L1 table."""
        return self.cluster_entry(index, bits, ~(COPIED | OFFSET), bits & OFFSET)

    def refcount_table_entry(self, index, bits):
        """An entry of the refcount table."""
        return self.cluster_entry(index, bits, 511, bits)

    def l2_entry(self, index, bits):
        """An entry of an L2 table."""
        if not bits & COMPRESSED:
            entry = self.cluster_entry(index, bits, ~(COPIED | OFFSET | ZERO), bits & OFFSET)
            is_first = self.header.is_external and bits & COPIED
            return entry._replace(length=self.header.cluster_size) if is_first else entry
        width = 70 - self.header.cluster_bits
        offset, sectors = bits % (1 << width), (bits & ~COMPRESSED) >> width
        if bits & COPIED or offset >= GREATEST_END:
            raise Refused(ENTRY_RESERVED)
        return Entry(index, bits, offset, SECTOR * (sectors + 1) - offset % SECTOR)

    def cluster_entry(self, index, bits, reserved, offset):
        """An entry that refers to a cluster, unless its offset is 0."""
        if bits & reserved:
            raise Refused(ENTRY_RESERVED)
        if offset % self.header.cluster_size:
            raise Refused(ENTRY_UNALIGNED)
        return Entry(index, bits, offset, self.header.cluster_size if offset else 0)

    def guest_entries(self):
        """Each guest cluster whose entry isn't 0, and that entry."""
        for l1_entry in self.l1_table:
            for entry in self.l2_tables.get(l1_entry.offset, []):
                yield l1_entry.index * self.header.table_entries + entry.index, entry

    @cached_property
    def has_zeros_at_start(self):
        """Whether guest cluster 0 reads as zeros and keeps the first cluster of an external data file."""
        cluster, entry = next(self.guest_entries(), (None, None))
        return self.header.is_external and cluster == 0 and entry.bits == COPIED | ZERO

    def host_clusters(self, entry):
        """The host clusters that an entry refers to."""
        if not entry.length:
            return range(0)
        size = self.header.cluster_size
        return range(entry.offset // size, (entry.offset + entry.length - 1) // size + 1)

    # Refcounts

    @cached_property
    def refcounts(self):
        """The refcounts that aren't 0, by their host clusters. Finds them by bytes that aren't 0."""
        found = Counter()
        for index, offset in self.refcount_blocks.items():
            first = index * self.header.block_refcounts
            for match in re.finditer(rb"[^\0]", self.bytes_at(offset, self.header.cluster_size)):
                for cluster, refcount in self.refcounts_of_byte(match.start(), match[0][0]):
                    found[first + cluster] += refcount
        return {cluster: refcount for cluster, refcount in found.items() if refcount}

    def refcounts_of_byte(self, place, byte):
        """The values that a byte of a refcount block adds to refcounts, by their indices in the block."""
        width = self.header.refcount_bits
        if width < 8:
            first = place * 8 // width
            return [(first + part, byte >> part * width & (1 << width) - 1) for part in range(8 // width)]
        index, further = divmod(place, width // 8)
        return [(index, byte << width - 8 - 8 * further)]

    def refcount(self, cluster):
        """The refcount of a host cluster, 0 if no block counts it."""
        return self.refcounts.get(cluster, 0)

    def block_of(self, cluster):
        """The host offset of the refcount block that counts a host cluster, if there is one."""
        return self.refcount_blocks.get(cluster // self.header.block_refcounts)

    def refcount_place(self, cluster):
        """The host cluster of the block that counts a host cluster, and the refcount's index there, if there is one."""
        block = self.block_of(cluster)
        return None if block is None else (block // self.header.cluster_size, cluster % self.header.block_refcounts)


def inflate(stored, most):
    """Inflates at most that many bytes. Returns them, and the stored bytes after the compressed data."""
    inflater = zlib.decompressobj(-12)
    return inflater.decompress(stored, most), inflater.unused_data
