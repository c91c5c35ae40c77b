"""Random lists of edits, and a prediction of their results.

The prediction of `qmeta apply` follows docs/REFERENCE.md and docs/FORMAT.md.
"""

from collections import Counter
from typing import NamedTuple

from .faults import BAD_EDIT, NOT_PLACED, REFCOUNT_RANGE, SHARED_TABLE, VERSION_NEEDED
from .image import COMPRESSED, COPIED, ZERO

# The lengths of random ranges in clusters, and the longest one of edits other than discards.
LENGTHS = [1, 1, 1, 2, 3, 5, 9, 30, 100, 5000]
MOST_ZEROS = 200


def owned_tables(image):
    """The L1 indices of the L2 tables with one reference, by refcount and copied flag."""
    size = image.header.cluster_size
    return {e.index for e in image.l1_table if e.bits & COPIED and image.refcount(e.offset // size) == 1}


def free_clusters(image):
    """The clusters of the file that have the refcount 0 in a block."""
    clusters = range(1, image.header.clusters_of(image.length))
    return [c for c in clusters if not image.refcount(c) and image.block_of(c) is not None]


# Drawing


class Edit(NamedTuple):
    """An edit: its name, its range in bytes, and the host cluster that it maps."""

    name: str
    offset: int
    length: int
    cluster: int = 0

    def word(self, chance, cluster_size):
        """The edit as an argument, with decimal or hexadecimal numbers. A discard of one cluster may have no length."""
        offset, length = (chance.choice([str, hex])(number) for number in (self.offset, self.length))
        if self.name == "map":
            return f"map:{offset}:{self.cluster}"
        is_short = self.name == "discard" and self.length == cluster_size and chance.random() < 0.5
        return f"discard:{offset}" if is_short else f"{self.name}:{offset}:{length}"


class Drawer:
    """Draws edits of an image, by its current tables."""

    def __init__(self, image, chance):
        self.image, self.chance = image, chance
        self.cluster_size, self.entries = image.header.cluster_size, image.header.table_entries
        self.clusters = image.header.guest_clusters
        self.free = free_clusters(image)
        self.owned = owned_tables(image)
        named = {entry.index for entry in image.l1_table if entry.length}
        self.missing = set(range(image.header.l1_size)) - named
        self.used = [cluster for cluster, _ in image.guest_entries()]
        self.taken = []

    def draw(self, names, is_sound):
        """Possible edits of these names. Unless the list is sound, adds one that `qmeta` mostly refuses."""
        edits = [self.sound(name) for name in names]
        if not is_sound:
            edits.insert(self.chance.randrange(len(edits) + 1), self.flawed())
        return edits

    def sound(self, name):
        """A possible edit of this name, or else a discard."""
        is_possible = {"map": bool(self.free), "discard": True}.get(name, self.image.header.version > 2)
        if not self.owned or not is_possible:
            name = "discard"
        if name == "map":
            self.taken.append(self.free.pop(self.chance.randrange(len(self.free))))
            return Edit("map", self.start(self.owned) * self.cluster_size, self.cluster_size, self.taken[-1])
        return self.range(name, self.start(self.owned), self.owned | (self.missing if name == "discard" else set()))

    def start(self, tables):
        """A guest cluster of one of these tables, mostly near one that is mapped."""
        used = [cluster for cluster in self.used if cluster // self.entries in tables]
        if used and self.chance.random() < 0.9:
            cluster = self.chance.choice(used)
            first = cluster // self.entries * self.entries
            return max(cluster - self.chance.choice([0, 0, 1, 3]), first)
        first = self.chance.choice(sorted(tables) or [0]) * self.entries
        return min(first + self.chance.randrange(self.entries), self.clusters - 1)

    def range(self, name, first, tables):
        """An edit from a guest cluster on, within the disk and as far as these tables reach without a gap."""
        count = self.chance.choice(LENGTHS)
        end = min(first + (count if name == "discard" else min(count, MOST_ZEROS)), self.clusters)
        table = first // self.entries + 1
        while table * self.entries < end and table in tables:
            table += 1
        end = min(end, table * self.entries)
        return Edit(name, first * self.cluster_size, (end - first) * self.cluster_size)

    def flawed(self):
        """An edit that `qmeta` mostly refuses."""
        chance, size, image = self.chance, self.cluster_size, self.image
        everywhere = set(range(image.header.l1_size))
        tables = chance.choice([everywhere, self.missing, everywhere - self.missing - self.owned or everywhere])
        edit = self.range(chance.choice(["discard", "zero", "keep"]), self.start(tables), everywhere)
        maps = edit._replace(name="map", length=size)
        end = image.header.clusters_of(image.length)
        uncounted = [number for number in range(1, end) if image.block_of(number) is None]
        flaws = [
            # of a table that may be shared or missing, about as often as all other flaws
            *[edit, maps._replace(cluster=chance.choice(self.free or [1]))] * 5,
            # of partial clusters, or of none
            edit._replace(offset=edit.offset + chance.randrange(1, size)),
            edit._replace(length=edit.length - chance.randrange(1, size)),
            edit._replace(length=0),
            # past the disk's end
            edit._replace(length=self.clusters * size - edit.offset + size),
            edit._replace(offset=(1 << 64) - size),
            # maps of a cluster in use, past the file's end, that no block counts, or that another edit maps
            maps._replace(cluster=chance.choice(list(image.refcounts))),
            maps._replace(cluster=end + chance.randrange(3)),
            maps._replace(cluster=chance.choice(uncounted or [0])),
            maps._replace(cluster=chance.choice(self.taken or [0])),
        ]
        return chance.choice(flaws)


# Predictions


class Expected:
    """The predicted result of a list of edits: the fault that refuses it, or the entries and refcounts afterwards."""

    def __init__(self, image, edits):
        self.image, self.edits = image, edits
        self.cluster_size, self.table_entries = image.header.cluster_size, image.header.table_entries
        self.named = {entry.index for entry in image.l1_table if entry.length}
        self.entries = dict(image.guest_entries())
        self.gains, self.losses = Counter(), Counter()
        self.fault = self.refusal()
        if self.fault is None:
            for edit in edits:
                self.make(edit)
            self.fault = self.refcount_refusal()

    def range_of(self, edit):
        """The guest clusters of an edit."""
        return range(edit.offset // self.cluster_size, (edit.offset + edit.length) // self.cluster_size)

    def fits(self, edit):
        """Whether an edit has whole clusters of the disk, and maps a cluster of the file other than the header's."""
        is_whole = edit.offset % self.cluster_size == 0 and edit.length % self.cluster_size == 0 and edit.length > 0
        is_in_disk = self.range_of(edit).stop <= self.image.header.guest_clusters
        is_in_file = edit.name != "map" or 0 < edit.cluster * self.cluster_size < self.image.length
        return is_whole and is_in_disk and is_in_file

    def refusal(self):
        """The fault that refuses the list before refcounts change."""
        if not all(map(self.fits, self.edits)):
            return BAD_EDIT
        if self.image.header.version == 2 and any(edit.name in ("zero", "keep") for edit in self.edits):
            return VERSION_NEEDED
        faults = (self.table_refusal(index) for index in range(self.image.header.l1_size))
        return next((fault for fault in faults if fault), None)

    def table_refusal(self, index):
        """The fault that refuses the edits of the table of an L1 entry."""
        of_table = range(index * self.table_entries, (index + 1) * self.table_entries)
        ranges = ((edit, self.range_of(edit)) for edit in self.edits)
        edits = [edit for edit, clusters in ranges if clusters.start < of_table.stop and of_table.start < clusters.stop]
        if index not in self.named:
            return NOT_PLACED if any(edit.name != "discard" for edit in edits) else None
        if edits and index not in owned_tables(self.image):
            return SHARED_TABLE
        return next(filter(None, (self.map_refusal(edit) for edit in edits if edit.name == "map")), None)

    def map_refusal(self, edit):
        """The fault that refuses a map, if no block counts its cluster, or it isn't free, or two edits map it."""
        if self.image.block_of(edit.cluster) is None:
            return NOT_PLACED
        maps = sum(other.name == "map" and other.cluster == edit.cluster for other in self.edits)
        return BAD_EDIT if self.image.refcount(edit.cluster) or maps > 1 else None

    def make(self, edit):
        """Makes an edit in the predicted entries."""
        clusters = self.range_of(edit)
        if edit.name == "discard":
            # a range may have millions of clusters
            clusters = [cluster for cluster in self.entries if cluster in clusters]
        for cluster in clusters:
            bits = self.entries[cluster].bits if cluster in self.entries else 0
            host_clusters = self.image.host_clusters(self.image.l2_entry(0, bits))
            if edit.name == "keep" and host_clusters and not bits & COMPRESSED:
                self.put(cluster, bits | ZERO)
                continue
            self.losses.update(host_clusters)
            self.gains.update([edit.cluster] if edit.name == "map" else [])
            self.put(cluster, {"discard": 0, "map": COPIED | edit.cluster * self.cluster_size}.get(edit.name, ZERO))

    def put(self, cluster, bits):
        """Sets the entry of a guest cluster. An entry of 0 isn't kept."""
        self.entries[cluster] = self.image.l2_entry(cluster % self.table_entries, bits)
        if not bits:
            del self.entries[cluster]

    def refcount_refusal(self):
        """The fault that refuses the list because a refcount can't follow. Gains count before losses."""
        for cluster in self.gains.keys() | self.losses.keys():
            risen = self.image.refcount(cluster) + self.gains[cluster]
            is_in_range = self.losses[cluster] <= risen <= self.image.header.greatest_refcount
            if self.image.block_of(cluster) is None or not is_in_range:
                return REFCOUNT_RANGE
        return None

    def refcounts(self):
        """The refcounts afterwards that aren't 0."""
        refcounts = Counter(self.image.refcounts)
        refcounts.update(self.gains)
        refcounts.subtract(self.losses)
        return {cluster: refcount for cluster, refcount in refcounts.items() if refcount}

    def printed(self):
        """The predicted output: the freed clusters, those that keep other references, and those that gained one."""
        refcounts, runs = self.refcounts(), []
        for cluster in sorted(self.losses):
            if cluster not in refcounts and runs and sum(runs[-1]) == cluster:
                runs[-1][1] += 1
            elif cluster not in refcounts:
                runs.append([cluster, 1])
        lines = [f"freed {first} {count}" for first, count in runs]
        lines += [f"kept {cluster} {refcounts[cluster]}" for cluster in sorted(self.losses) if cluster in refcounts]
        lines += [f"gained {cluster}" for cluster in sorted(self.gains)]
        return "".join(line + "\n" for line in lines)
