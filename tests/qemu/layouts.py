"""Images of given layouts, written from bytes.

The header is in cluster 0. The L1 table begins with cluster 1, and the L2 tables follow it.
"""

import random
from array import array
from collections import Counter

from .draft import table_bytes, table_with, write_image
from .image import COMPRESSED, COPIED, ENTRY_SIZE, SECTOR, ZERO, Geometry, Header, Image

# The number of images with random entries, and of the host clusters that the data of each lies in.
RANDOM_IMAGES, HOST_CLUSTERS = 40, 24

# Clusters as QEMU makes them, and the smallest ones.
USUAL, SMALL = Geometry(16), Geometry(9)

# The number of L2 tables of the mixed image, and of entries of the longest L1 table.
MIXED_TABLES = (1 << 21) // USUAL.table_entries
MOST_L1_ENTRIES = 1 << 22


# Entries that are drawn at random


def random_images(folder):
    """Writes random images one after the other, the same in each run, and yields the path and a description of each."""
    for number in range(RANDOM_IMAGES):
        path = folder / f"random-{number}.qcow2"
        yield path, write_random_image(path, random.Random(f"random {number}"))


def write_random_image(path, chance):
    """Writes an image whose L2 entries are drawn at random, and returns its description.

    Its data lies in host clusters after its tables: in a row, backwards, or in one cluster again and again. An empty
    refcount table follows. The disk may end within a cluster and within an L2 table, and some L2 tables are missing.
    """
    geometry = Geometry(chance.randrange(9, 22))
    version = chance.choice([2, 3, 3])
    cluster_size, entries = geometry.cluster_size, geometry.table_entries
    clusters = chance.randrange(1, 3 * entries) if geometry.cluster_bits < 14 else chance.randrange(1, 200)
    size = clusters * cluster_size - SECTOR * chance.randrange(cluster_size // SECTOR)
    tables = -(-clusters // entries)
    first_data = 2 + tables
    l2_entries = random_entries(chance, tables * entries, geometry.cluster_bits, version, first_data)
    named = [table for table in range(tables) if table == 0 or chance.random() < 0.8]
    l1_table = {table: COPIED | (2 + table) * cluster_size for table in named}
    header = Header(
        cluster_bits=geometry.cluster_bits,
        version=version,
        size=size,
        l1_size=tables,
        l1_table_offset=cluster_size,
        refcount_table_offset=(first_data + HOST_CLUSTERS) * cluster_size,
        refcount_table_clusters=1,
    )
    parts = [(cluster_size, table_with(l1_table, tables)), (2 * cluster_size, table_bytes(l2_entries))]
    parts += [(first_data * cluster_size, b"\1" * (HOST_CLUSTERS * cluster_size))]
    write_image(path, header.pack(), parts, header.refcount_table_offset + cluster_size)
    return f"version {version}, clusters of {cluster_size}, size {size}"


def random_entries(chance, count, cluster_bits, version, first_data):
    """L2 entries in runs of one kind. Version 2 has no zero clusters."""
    kinds = "none none data backwards shared compressed".split() + ["zero", "kept"] * (version > 2)
    entries = []
    while len(entries) < count:
        kind = chance.choice(kinds)
        host = first_data + chance.randrange(HOST_CLUSTERS // 2)
        flags = {"none": 0, "zero": ZERO, "kept": ZERO, "compressed": COMPRESSED}.get(kind, chance.choice([0, COPIED]))
        for step in range(chance.choice([1, 1, 2, 3, 9])):
            further = {"data": step, "kept": step, "backwards": -step % (HOST_CLUSTERS // 2)}.get(kind, 0)
            has_cluster = kind not in ("none", "zero")
            entries.append(flags | has_cluster * (host + further) << cluster_bits)
    return entries[:count]


# Refcounts alone


def write_checkered_image(path, clusters):
    """Writes an image with refcounts of 1 bit, which are 1 for every second cluster, so that most of these leak."""
    geometry = Geometry(9, 0)
    cluster_size, blocks = geometry.cluster_size, -(-clusters // geometry.block_refcounts)
    header = Header(
        cluster_bits=geometry.cluster_bits,
        refcount_order=geometry.refcount_order,
        size=1 << 20,
        l1_size=1,
        l1_table_offset=cluster_size,
        refcount_table_offset=2 * cluster_size,
        refcount_table_clusters=1,
    )
    offsets = [cluster_size * (3 + block) for block in range(blocks)]
    parts = [(2 * cluster_size, table_bytes(offsets)), (offsets[0], b"\x55" * (blocks * cluster_size))]
    write_image(path, header.pack(), parts, cluster_size * (3 + blocks))


# Consistent images of many entries, whose data is a hole of the file


def write_counted_image(path, geometry, l1_size, named, l2_entries, host_clusters):
    """Writes a consistent image. Its L1 entries `named` name its L2 tables, which have these entries.

    `host_clusters` is the number of clusters up to the last that an entry refers to. The refcount table and its
    blocks follow, and each cluster has one reference.
    """
    cluster_size = geometry.cluster_size
    first_table = cluster_after_l1(geometry, l1_size)
    l1_table = {index: COPIED | (first_table + table) * cluster_size for table, index in enumerate(named)}
    first_block, end = refcounts_after(geometry, host_clusters)
    header = Header(
        cluster_bits=geometry.cluster_bits,
        size=l1_size * geometry.mapped_by_table,
        l1_size=l1_size,
        l1_table_offset=cluster_size,
        refcount_table_offset=host_clusters * cluster_size,
        refcount_table_clusters=first_block - host_clusters,
    )
    parts = [
        (header.l1_table_offset, table_with(l1_table, l1_size)),
        (first_table * cluster_size, table_bytes(l2_entries)),
        (header.refcount_table_offset, table_bytes(block * cluster_size for block in range(first_block, end))),
        (first_block * cluster_size, b"\0\1" * end),
    ]
    write_image(path, header.pack(), parts, end * cluster_size)


def cluster_after_l1(geometry, l1_size):
    """The cluster after an L1 table of that many entries, which begins with cluster 1."""
    return 1 + geometry.clusters_of(ENTRY_SIZE * l1_size)


def refcounts_after(geometry, host_clusters):
    """The first block, after that many clusters and a refcount table, and the end of the blocks, which count all."""
    first_block = host_clusters
    while True:
        blocks = -(-first_block // (geometry.block_refcounts - 1))
        table = geometry.clusters_of(ENTRY_SIZE * blocks)
        if host_clusters + table <= first_block:
            return first_block, first_block + blocks
        first_block = host_clusters + table


def write_mixed_image(path):
    """Writes an image with 2^21 mixed entries, and returns the number of each kind."""
    chance = random.Random("mixed entries")
    kinds = chance.choices(["data", "zero", "compressed", "none"], k=MIXED_TABLES * USUAL.table_entries)
    host_cluster = cluster_after_l1(USUAL, MIXED_TABLES) + MIXED_TABLES
    entries = []
    for kind in kinds:
        has_cluster = kind in ("data", "compressed")
        flags = {"data": COPIED, "zero": ZERO, "compressed": COMPRESSED, "none": 0}[kind]
        entries.append(flags | has_cluster * host_cluster * USUAL.cluster_size)
        host_cluster += has_cluster
    write_counted_image(path, USUAL, MIXED_TABLES, range(MIXED_TABLES), entries, host_cluster)
    return Counter(kind for kind in kinds if kind != "none")


def write_row_image(path, geometry, size, is_sparse=False):
    """Writes an image of a disk of that size, with data in a row: all of it, or the first cluster of each L2 table."""
    tables = size // geometry.mapped_by_table
    first = cluster_after_l1(geometry, tables) + tables
    entries = array("Q", bytes(ENTRY_SIZE * tables * geometry.table_entries))
    step = geometry.table_entries if is_sparse else 1
    mapped = range(first, first + len(entries) // step)
    entries[::step] = array("Q", (COPIED | cluster * geometry.cluster_size for cluster in mapped))
    write_counted_image(path, geometry, tables, range(tables), entries, mapped.stop)


def write_leak(path):
    """Adds a leaked cluster at the end of an image with refcounts of 16 bits, whose last block counts one more."""
    image = Image(path)
    size, cluster = image.header.cluster_size, image.length // image.header.cluster_size
    block, index = image.refcount_place(cluster)
    with open(path, "r+b") as file:
        file.truncate((cluster + 1) * size)
        file.seek(block * size + 2 * index)
        file.write(b"\0\1")


def write_long_image(path):
    """Writes an image with the longest L1 table. Its first and its last entry name an L2 table each."""
    end = cluster_after_l1(USUAL, MOST_L1_ENTRIES) + 2
    entries = [ZERO] * (USUAL.table_entries * 2)
    write_counted_image(path, USUAL, MOST_L1_ENTRIES, [0, MOST_L1_ENTRIES - 1], entries, end)
