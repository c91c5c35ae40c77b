"""The writer of qcow2 images: from bytes of tables and refcounts, and from drafts that are damaged at random.

A `Draft` is a whole image in memory, whose parts lie in random order. Its refcounts and copied flags are right until
damages change it.
"""

import struct
from array import array
from collections import Counter
from typing import NamedTuple

from .image import COMPRESSED, COPIED, CORRUPT, DATA_FILE, DIRTY, ENTRY_SIZE, EXTERNAL_DATA, FEATURES_LENGTH
from .image import INCOMPATIBLE_OFFSET, SECTOR, ZERO, Geometry, Header

# The bytes that are written at once, or become a hole.
PAGE = 4096

# Cluster bits: most are small, since a check of a small disk shows more then.
CLUSTER_BITS = [9, 9, 9, 10, 11, 12, 12, 13, 14, 16, 18, 21]

# The most damages of an image.
MOST_DAMAGES = 4


# Bytes


def table_bytes(entries):
    """The bytes of a table's entries."""
    table = array("Q", entries)
    table.byteswap()
    return memoryview(table).cast("B")


def table_with(entries, count):
    """The bytes of a table of that many entries, all 0 except these, by their indices."""
    table = array("Q", bytes(ENTRY_SIZE * count))
    for index, bits in entries.items():
        table[index] = bits
    return table_bytes(table)


def put_refcount(stored, offset, geometry, index, refcount):
    """Puts the refcount of this index into the refcount block that begins at an offset of stored bytes."""
    width = geometry.refcount_bits
    place, shift = divmod(index * width, 8)
    first, end = offset + place, offset + place + max(width // 8, 1)
    others = int.from_bytes(stored[first:end], "big") & ~(geometry.greatest_refcount << shift)
    stored[first:end] = (others | refcount << shift).to_bytes(end - first, "big")


def put_entry(stored, offset, index, bits):
    """Puts the entry of this index into the table that begins at an offset of stored bytes."""
    place = offset + ENTRY_SIZE * index
    stored[place : place + ENTRY_SIZE] = bits.to_bytes(ENTRY_SIZE, "big")


def put_features(stored, features):
    """Puts the incompatible features into the header with which stored bytes begin."""
    stored[INCOMPATIBLE_OFFSET : INCOMPATIBLE_OFFSET + FEATURES_LENGTH] = features.to_bytes(FEATURES_LENGTH, "big")


def write_entry(path, offset, index, bits):
    """Writes the entry of this index into the table at a host offset of an image."""
    with open(path, "r+b") as file:
        file.seek(offset + ENTRY_SIZE * index)
        file.write(bits.to_bytes(ENTRY_SIZE, "big"))


def write_image(path, header, parts, length):
    """Writes an image of that length: the bytes of its header, and parts, each a host offset and bytes."""
    with open(path, "wb") as file:
        for offset, stored in [(0, header), *parts]:
            write_pages(file, offset, memoryview(stored))
        file.truncate(length)


def write_pages(file, offset, stored):
    """Writes bytes from an offset on. Pages of zeros become holes."""
    for start in range(0, len(stored), PAGE):
        page = stored[start : start + PAGE]
        if page != bytes(len(page)):
            file.seek(offset + start)
            file.write(page)


# Drafts


class Part(NamedTuple):
    """Clusters in a row of one kind, in the image or before they have a place."""

    kind: str
    count: int
    first: int = 0


class Slot(NamedTuple):
    """The place of an entry: its table, and its index there."""

    table: dict
    index: int


class Draft:
    """An image before it is written: its tables, as dictionaries of entries other than 0, and its refcounts."""

    def __init__(self, chance):
        self.chance, self.marks = chance, 0
        self.version = chance.choice([2, 3, 3, 3])
        order = chance.randrange(7) if self.version > 2 else 4
        self.geometry = Geometry(chance.choice(CLUSTER_BITS), order)
        self.is_external = self.version > 2 and chance.random() < 0.15
        self.cluster_size, self.entries = self.geometry.cluster_size, self.geometry.table_entries
        self.place_parts()
        self.name_tables()
        self.map_guest_clusters()
        self.count_and_flag()
        self.size = self.l1_size * self.geometry.mapped_by_table
        self.size -= SECTOR * chance.randrange(self.cluster_size // SECTOR)

    def __str__(self):
        outside = ", data outside" if self.is_external else ""
        counters = f"counters of {self.geometry.refcount_bits} bits"
        marks = ", dirty" * (self.marks & DIRTY != 0) + ", corrupt" * (self.marks & CORRUPT != 0)
        return f"version {self.version}, clusters of {self.cluster_size}, {counters}{outside}{marks}"

    # Making it

    def place_parts(self):
        """Places the parts in random order, with some free clusters between, and enough blocks for all of them."""
        chance = self.chance
        large = self.geometry.cluster_bits > 14
        self.l1_size = chance.choice([1, 3, 6, 6, 150 if self.geometry.cluster_bits == 9 else 2])
        tables = chance.randrange(1, 3 if large else 5)
        parts = [Part("l1", self.geometry.clusters_of(ENTRY_SIZE * self.l1_size))]
        parts += [Part("refcount table", chance.choice([1, 1, 2]))]
        parts += [Part("table", 1)] * min(tables, self.l1_size) + [Part("data", 1)] * chance.randrange(3, 40)
        parts += [Part("packed", chance.randrange(1, 5))] * (not self.is_external)
        gaps = [Part("free", 1)] * chance.randrange(8)
        clusters = 1 + sum(part.count for part in parts + gaps)
        blocks = -(-clusters // (self.geometry.block_refcounts - 1))
        parts += gaps + [Part("block", 1)] * blocks
        chance.shuffle(parts)
        self.parts, self.end = [], 1
        for part in parts:
            self.parts.append(part._replace(first=self.end))
            self.end += part.count
        self.length = self.end * self.cluster_size

    def of_kind(self, kind):
        """The parts of a kind."""
        return [part for part in self.parts if part.kind == kind]

    def name_tables(self):
        """Names L2 tables in random L1 entries, and refcount blocks in the first entries of the refcount table."""
        starts = [part.first for part in self.of_kind("table")]
        indices = self.chance.sample(range(self.l1_size), len(starts))
        self.l1 = {index: start * self.cluster_size for index, start in zip(indices, starts)}
        self.tables = {start: {} for start in starts}
        self.refcount_table = {n: part.first * self.cluster_size for n, part in enumerate(self.of_kind("block"))}

    def map_guest_clusters(self):
        """Maps guest clusters to data, some of it up to three times, some as zeros, and to compressed data."""
        chance, self.guest = self.chance, Counter()
        for cluster in [part.first for part in self.of_kind("data")]:
            for _ in range(chance.choice([1, 1, 1, 2, 3])):
                zero = ZERO if self.version > 2 and chance.random() < 0.2 else 0
                self.map_if_counted(cluster * self.cluster_size | zero, range(cluster, cluster + 1))
        for part in self.of_kind("packed"):
            for _ in range(chance.randrange(1, 3 * part.count)):
                self.map_if_counted(*self.compressed(part.first, part.first + part.count))

    def compressed(self, first, end):
        """An entry of compressed data within some clusters, and the clusters that it touches."""
        offset = self.chance.randrange(first * self.cluster_size, end * self.cluster_size)
        sector = offset // SECTOR
        most = min(self.cluster_size // SECTOR, end * self.cluster_size // SECTOR - sector)
        sectors = self.chance.randrange(1, most + 1)
        last = SECTOR * (sector + sectors) - 1
        bits = COMPRESSED | sectors - 1 << 70 - self.geometry.cluster_bits | offset
        return bits, range(offset // self.cluster_size, last // self.cluster_size + 1)

    def map_if_counted(self, bits, clusters):
        """Maps a random guest cluster by an entry, unless it is mapped or a refcount would pass the greatest."""
        table = self.tables[self.chance.choice(list(self.tables))]
        index = self.chance.randrange(self.entries)
        if index not in table and all(self.guest[cluster] < self.geometry.greatest_refcount for cluster in clusters):
            table[index] = bits
            self.guest.update(clusters)

    def count_and_flag(self):
        """Counts the references to clusters, and sets the copied flags of entries whose cluster has one."""
        self.refcounts = Counter([0])
        for part in self.parts:
            if part.kind in ("l1", "refcount table", "table", "block"):
                self.refcounts.update(range(part.first, part.first + part.count))
        self.refcounts += Counter() if self.is_external else self.guest
        for index in self.l1:
            self.l1[index] |= COPIED
        for table in self.tables.values():
            for index, bits in table.items():
                refcount = 1 if self.is_external else self.refcounts[bits // self.cluster_size]
                if not bits & COMPRESSED and refcount == 1:
                    table[index] |= COPIED

    # Random choices of damages

    def any_cluster(self):
        """A random cluster after the header's, or one of the first three past the end."""
        return self.chance.choice([self.chance.randrange(1, self.end)] * 5 + [self.end + self.chance.randrange(3)])

    def any_slot(self, tables):
        """A random entry of some tables that isn't 0, if there is one."""
        slots = [Slot(table, index) for table in tables for index in table]
        return self.chance.choice(slots) if slots else None

    def guest_slot(self):
        """A random entry of an L2 table, sometimes one that may be 0."""
        if self.chance.random() < 0.3:
            table = self.tables[self.chance.choice(list(self.tables))]
            return Slot(table, self.chance.randrange(self.entries))
        return self.any_slot(self.tables.values())

    # Writing it

    def write(self, path):
        """Writes the header, the tables and the blocks. All else of the file is a hole."""
        (l1,), (refcount_table,), size = self.of_kind("l1"), self.of_kind("refcount table"), self.cluster_size
        parts = [(l1.first * size, table_with(self.l1, self.l1_size))]
        parts += [(refcount_table.first * size, table_with(self.refcount_table, self.entries))]
        parts += [(start * size, table_with(table, self.entries)) for start, table in self.tables.items()]
        parts += [(part.first * size, self.block_bytes(n)) for n, part in enumerate(self.of_kind("block"))]
        write_image(path, self.header_bytes(l1, refcount_table, path.stem), parts, self.length)

    def block_bytes(self, number):
        """The bytes of a refcount block, by its index in the refcount table before damages."""
        stored, each = bytearray(self.cluster_size), self.geometry.block_refcounts
        for cluster, refcount in self.refcounts.items():
            if refcount and cluster // each == number:
                put_refcount(stored, 0, self.geometry, cluster % each, refcount)
        return stored

    def header_bytes(self, l1, refcount_table, name):
        """The bytes of the header, and of an extension with the name of the external data file, if there is one.

        That is the image's name with another suffix.
        """
        header = Header(
            cluster_bits=self.geometry.cluster_bits,
            refcount_order=self.geometry.refcount_order,
            version=self.version,
            size=self.size,
            l1_size=self.l1_size,
            l1_table_offset=l1.first * self.cluster_size,
            refcount_table_offset=refcount_table.first * self.cluster_size,
            refcount_table_clusters=refcount_table.count,
            incompatible_features=self.marks | (EXTERNAL_DATA if self.is_external else 0),
        )
        data_file = f"{name}.data".encode()
        extension = struct.pack(">4sI", DATA_FILE, len(data_file)) + data_file.ljust(-(-len(data_file) // 8) * 8, b"\0")
        return header.pack() + extension * self.is_external


# Damages: each changes a draft, if that has anything to damage so


def raise_counter(draft):
    """Raises a refcount."""
    cluster = draft.any_cluster()
    risen = draft.refcounts[cluster] + draft.chance.choice([1, 1, 2, 300])
    draft.refcounts[cluster] = min(risen, draft.geometry.greatest_refcount)


def lower_counter(draft):
    """Lowers a refcount."""
    cluster = draft.chance.choice(list(draft.refcounts))
    draft.refcounts[cluster] = max(draft.refcounts[cluster] - draft.chance.choice([1, 1, 2]), 0)


def fill_counter(draft):
    """Makes a refcount the largest."""
    draft.refcounts[draft.any_cluster()] = draft.geometry.greatest_refcount


def raise_counters_in_a_row(draft):
    """Raises the refcounts of clusters in a row."""
    first = draft.chance.randrange(draft.end)
    for cluster in range(first, min(first + draft.chance.randrange(2, 9), draft.end)):
        draft.refcounts[cluster] = min(draft.refcounts[cluster] + 1, draft.geometry.greatest_refcount)


def turn_flag(draft):
    """Flips copied flags of L1 entries and of L2 entries that aren't compressed."""
    for _ in range(draft.chance.randrange(1, 4)):
        slot = draft.any_slot([draft.l1, *draft.tables.values()])
        if slot and not slot.table[slot.index] & COMPRESSED:
            slot.table[slot.index] ^= COPIED


def point_entry(draft):
    """Points an L2 entry at another cluster, which may be a table's."""
    slot = draft.guest_slot()
    if slot:
        flags = draft.chance.choice([0, COPIED]) | (ZERO if draft.version > 2 and draft.chance.random() < 0.2 else 0)
        slot.table[slot.index] = flags | draft.any_cluster() * draft.cluster_size


def compress_entry(draft):
    """Makes an L2 entry one of compressed data anywhere in the image, often across clusters."""
    slot = draft.guest_slot()
    if slot:
        slot.table[slot.index] = draft.compressed(draft.chance.randrange(draft.end), draft.end)[0]


def drop_entry(draft):
    """Makes an entry of the L1 table or of an L2 table 0."""
    slot = draft.any_slot([draft.l1, *draft.tables.values(), *draft.tables.values()])
    if slot:
        del slot.table[slot.index]


def repeat_table(draft):
    """Names an L2 table twice."""
    slot = draft.any_slot([draft.l1])
    if slot:
        flag = draft.chance.choice([0, COPIED])
        draft.l1[draft.chance.randrange(draft.l1_size)] = slot.table[slot.index] & ~COPIED | flag


def point_table(draft):
    """Points an L1 entry at any cluster as its L2 table."""
    index = draft.chance.randrange(draft.l1_size)
    draft.l1[index] = draft.chance.choice([0, COPIED]) | draft.any_cluster() * draft.cluster_size


def flag_no_table(draft):
    """Sets the copied flag of an L1 entry that is 0."""
    index = draft.chance.randrange(draft.l1_size)
    draft.l1.setdefault(index, COPIED)


def drop_block(draft):
    """Makes an entry of the refcount table 0."""
    slot = draft.any_slot([draft.refcount_table])
    if slot:
        del slot.table[slot.index]


def point_block(draft):
    """Points an entry of the refcount table at any cluster, in place of a block or as one more."""
    index = draft.chance.randrange(len(draft.refcount_table) + 2)
    draft.refcount_table[index] = draft.any_cluster() * draft.cluster_size


def repeat_block(draft):
    """Names a refcount block twice."""
    slot = draft.any_slot([draft.refcount_table])
    if slot:
        draft.refcount_table[len(draft.refcount_table) + draft.chance.randrange(2)] = slot.table[slot.index]


def cut_file(draft):
    """Cuts sectors from the last cluster."""
    draft.length -= SECTOR * draft.chance.randrange(draft.cluster_size // SECTOR)


DAMAGES = [raise_counter, lower_counter, fill_counter, raise_counters_in_a_row, turn_flag, point_entry, compress_entry]
DAMAGES += [drop_entry, repeat_table, point_table, flag_no_table, drop_block, point_block]
DAMAGES += [repeat_block, cut_file]


def damaged_draft(chance):
    """A draft with some damages, or none, and their names. It may be marked dirty or corrupt."""
    draft = Draft(chance)
    damages = [chance.choice(DAMAGES) for _ in range(chance.randrange(MOST_DAMAGES + 1))]
    for damage in damages:
        damage(draft)
    if draft.version > 2 and chance.random() < 0.2:
        draft.marks = chance.choice([DIRTY, CORRUPT, DIRTY | CORRUPT])
    return draft, [damage.__name__ for damage in damages]
