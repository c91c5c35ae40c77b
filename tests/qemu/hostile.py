"""Hostile images: small files whose tables name a few clusters many times, or clusters that lie far apart.

A maker writes such a file and returns the number of distinct clusters that its L2 entries refer to. All except tables
and blocks with content is a hole of the file, or lies past its end, and so reads as zeros.
"""

from array import array
from typing import Callable, NamedTuple

from .draft import table_bytes, table_with, write_image
from .image import COMPRESSED, COPIED, ENTRY_SIZE, SECTOR, Geometry, Header, Image
from .layouts import SMALL, USUAL

# The largest clusters, with refcounts of 1 bit: a block has 2^24 of them. The same with usual refcounts.
LARGE, LARGE_USUAL = Geometry(21, 0), Geometry(21)

# Usual clusters with refcounts of 1 bit.
NARROW = Geometry(16, 0)

# The most entries of an L1 table and of a refcount table.
MOST_ENTRIES = 1 << 22

# The distance between clusters that lie far apart, and the most clusters that compressed data touches.
APART, MET = 1 << 12, 3

# The number of L2 entries that name clusters of several blocks in turn.
IN_TURN = 2048

# Refcounts of 1 bit of which every second is 1.
CHECKERED = b"\xaa"


class Place(NamedTuple):
    """The first clusters of the tables of an image. The L1 table begins with cluster 1."""

    geometry: Geometry
    l1_size: int
    blocks_named: int

    @property
    def refcount_table(self):
        """The first cluster of the refcount table."""
        return 1 + self.geometry.clusters_of(ENTRY_SIZE * self.l1_size)

    @property
    def refcount_table_clusters(self):
        """The number of clusters of the refcount table."""
        return self.geometry.clusters_of(ENTRY_SIZE * self.blocks_named)

    @property
    def free(self):
        """The first cluster after both."""
        return self.refcount_table + self.refcount_table_clusters

    def header(self):
        """The header of the image."""
        return Header(
            cluster_bits=self.geometry.cluster_bits,
            refcount_order=self.geometry.refcount_order,
            size=self.l1_size * self.geometry.mapped_by_table,
            l1_size=self.l1_size,
            l1_table_offset=self.geometry.cluster_size,
            refcount_table_offset=self.refcount_table * self.geometry.cluster_size,
            refcount_table_clusters=self.refcount_table_clusters,
        )


def write_tables(path, place, l1_table, refcount_table, contents, end):
    """Writes an image up to a cluster: tables that name these clusters, and the contents of some clusters.

    A 0 in the L1 table names no table. All other L1 entries have the copied flag.
    """
    size = place.geometry.cluster_size
    parts = [(size, table_bytes(COPIED * bool(cluster) | cluster * size for cluster in l1_table))]
    parts += [(place.refcount_table * size, table_bytes(cluster * size for cluster in refcount_table))]
    parts += [(cluster * size, stored) for cluster, stored in contents.items()]
    write_image(path, place.header().pack(), parts, end * size)


# Refcount blocks and L2 tables in turn


def entries_in_turn(path, blocks):
    """L2 entries name clusters whose refcounts lie in that many blocks in turn."""
    place = Place(LARGE, 1, blocks)
    table, first_block = place.free, place.free + 1
    end = first_block + blocks
    clusters = (index % blocks * LARGE.block_refcounts + end + index for index in range(IN_TURN))
    entries = {index: COPIED | cluster << LARGE.cluster_bits for index, cluster in enumerate(clusters)}
    contents = {table: table_with(entries, LARGE.table_entries)}
    write_tables(path, place, [table], range(first_block, end), contents, end)
    return IN_TURN


def tables_in_turn(path, times):
    """L1 entries name two L2 tables in turn, whose refcounts lie in two blocks. The second is past the file's end."""
    place = Place(LARGE, times, 2)
    blocks = range(place.free, place.free + 2)
    tables = [blocks.stop, LARGE.block_refcounts]
    write_tables(path, place, tables * (times // 2), blocks, {}, blocks.stop + 1)
    return 0


# Tables and blocks that are named many times


def entries_by_block(path, geometry, times):
    """Entries of the refcount table all name one block. An L2 entry names a cluster in the range of each.

    The refcounts of the first clusters of each range are 1, so that the entries can be discarded.
    """
    place = Place(geometry, 1, times)
    table, block, first = range(place.free, place.free + 3)
    clusters = (index * geometry.block_refcounts + first + index for index in range(times))
    entries = {index: COPIED | cluster << geometry.cluster_bits for index, cluster in enumerate(clusters)}
    contents = {table: table_with(entries, geometry.table_entries), block: b"\xff" * -(-(first + times) // 8)}
    write_tables(path, place, [table], [block] * times, contents, first)
    return times


def repeated_block(path, geometry, times, byte):
    """Entries of the refcount table all name one block, whose bytes are all this one."""
    place = Place(geometry, 1, times)
    contents = {place.free: byte * geometry.cluster_size}
    write_tables(path, place, [0], [place.free] * times, contents, place.free + 1)
    return 0


def repeated_table(path, geometry, times, mapped):
    """L1 entries all name one L2 table, of which some entries name clusters with copied flags. Refcounts are 0."""
    place = Place(geometry, times, 1)
    table, block, first = range(place.free, place.free + 3)
    entries = {index: COPIED | (first + index) << geometry.cluster_bits for index in range(mapped)}
    contents = {table: table_with(entries, geometry.table_entries)}
    write_tables(path, place, [table] * times, [block], contents, first)
    return mapped


# Clusters that lie far apart


def entries_apart(path, tables, apart, counted=1):
    """Entries of L2 tables name clusters that lie this far apart. One block of zeros counts the first of them.

    The first `counted` entries of the refcount table name it.
    """
    place = Place(NARROW, tables, counted)
    block, first = place.free + tables, place.free + tables + 1
    count, size = tables * NARROW.table_entries, NARROW.cluster_size
    entries = array("Q", range(COPIED | first * size, COPIED | (first + count * apart) * size, apart * size))
    contents = {place.free: table_bytes(entries)}
    write_tables(path, place, range(place.free, block), [block] * counted, contents, first)
    return count


def compressed_apart(path, tables, times):
    """L2 entries have compressed data that touches three clusters each, far apart.

    L1 entries name each table this often.
    """
    place = Place(USUAL, tables * times, 1)
    block, first = place.free + tables, place.free + tables + 1
    count, size = tables * USUAL.table_entries, USUAL.cluster_size
    most = COMPRESSED | (2 * size // SECTOR - 1) << 70 - USUAL.cluster_bits
    start = most | (first + 1) * size - SECTOR
    entries = array("Q", range(start, start + count * APART * size, APART * size))
    contents = {place.free: table_bytes(entries)}
    write_tables(path, place, list(range(place.free, block)) * times, [block], contents, first)
    return count * MET


# Tables past the end of the file


def header_alone(path, length):
    """Names the longest L1 table and the longest refcount table, both past the end of a file of this length."""
    place = Place(SMALL, MOST_ENTRIES, MOST_ENTRIES)
    write_image(path, place.header().pack(), [], length)
    return 0


# All of them


class Case(NamedTuple):
    """A hostile file: its name, the timed commands, its maker with its arguments, and whether clusters lie far apart.

    `unmet` has pairs of a command and a bound that it is known to miss, as docs/PERFORMANCE.md says.
    """

    name: str
    commands: tuple
    maker: Callable
    words: tuple
    is_apart: bool = False
    unmet: tuple = ()

    def write(self, path):
        """Writes the file, and returns its measures."""
        mapped = self.maker(path, *self.words)
        return measures(path, mapped)._replace(apart=mapped if self.is_apart else 0)


READERS = ("check", "check json", "layout", "list", "map", "repair")

# The bounds that commands are known to miss on some files.
REPAIR, APPLY, CHECK = (("repair", "qemu"),), (("apply plan", "qemu"), ("apply plan", "limit")), (("check", "qemu"),)
CHECK_AND_LAYOUT = (*CHECK, ("layout", "qemu"))

CASES = (
    Case("2048 L2 entries, 2 blocks in turn", ("check", "check json", "repair"), entries_in_turn, (2,), unmet=REPAIR),
    Case("2048 L2 entries, 32 blocks in turn", ("check", "repair"), entries_in_turn, (32,), unmet=REPAIR),
    Case("1024 L1 entries, 2 blocks in turn", ("tables", "check"), tables_in_turn, (1024,)),
    Case("a block of zeros, 8192 times", ("check", "check json"), repeated_block, (USUAL, 8192, b"\0")),
    Case("a block of zeros, 4096 times", ("layout", "layout svg"), repeated_block, (USUAL, 4096, b"\0")),
    Case("a large block of zeros, 64 times", ("check", "layout"), repeated_block, (LARGE, 64, b"\0")),
    Case("a block of 10101010, 256 times", ("check", "layout"), repeated_block, (NARROW, 256, CHECKERED)),
    Case("2048 L2 entries, a block 2048 times", ("apply plan",), entries_by_block, (LARGE, 2048), unmet=APPLY),
    Case("an empty L2 table, 4096 times", READERS, repeated_table, (LARGE_USUAL, 4096, 0)),
    Case("a full L2 table, 512 times", ("check", "check json", "layout"), repeated_table, (USUAL, 512, 8192)),
    Case("134 MB of entries far apart", ("check",), entries_apart, (2048, APART), True),
    Case("34 MB of entries over all windows", ("check", "layout"), entries_apart, (512, 16, 128)),
    Case("34 MB, 3 compressed clusters an entry", ("check",), compressed_apart, (512, 1), True, unmet=CHECK),
    Case("4 MB of these, each table 16 times", ("check",), compressed_apart, (64, 16), True),
    Case(
        "4 KiB, longest tables past the end",
        ("check", "layout", "tables", "list"),
        header_alone,
        (4096,),
        unmet=CHECK_AND_LAYOUT,
    ),
)


# Measures


class Measures(NamedTuple):
    """The measures that bounds are linear in: T, the bytes of distinct tables and blocks, and U, clusters in use.

    `apart` of these clusters lie far apart. `named_again` is the bytes of blocks at later entries that name them.
    """

    table_bytes: int
    used: int
    apart: int
    named_again: int

    @property
    def both(self):
        """T + U."""
        return self.table_bytes + self.used


def measures(path, mapped):
    """The measures of an image whose L2 entries refer to that many clusters, none of them a table's or a block's.

    A table counts whole, even if it is a hole of the file or past its end.
    """
    image = Image(path)
    header, size = image.header, image.header.cluster_size
    blocks = set(image.refcount_blocks.values())
    tables, refcount_table = set(image.l2_offsets()) | blocks, header.refcount_table_clusters
    used = 1 + header.clusters_of(ENTRY_SIZE * header.l1_size) + refcount_table + len(tables) + mapped
    table_bytes = ENTRY_SIZE * header.l1_size + (refcount_table + len(tables)) * size
    return Measures(table_bytes, used, 0, (len(image.refcount_blocks) - len(blocks)) * size)


def measures_of_whole(path):
    """The measures of a consistent image, in which each cluster is in use."""
    image = Image(path)
    return measures(path, 0)._replace(used=image.length // image.header.cluster_size)
