"""Images for `qmeta apply`, which QEMU's tools make and fill.

A disk has L2 tables with three tasks, in random order. The guest writes to most of them, after snapshots too, so that
these are the disk's own. It writes to one only before the first snapshot, so that snapshots share that table. It never
writes to another, so that this one is missing. Free clusters with bytes in them end the file.
"""

from dataclasses import dataclass

from .image import AUTOCLEAR_OFFSET, SECTOR, Geometry, Image
from .tools import create_image, fill_image, run, take_snapshot

# The number of guest clusters in rows of data, up to these cluster bits. Images with larger clusters have no rows.
ROWS = {12: 1200, 14: 300}

# At the end the guest frees one in so many clusters of some rows.
FREED = 9

# The number of free clusters at the file's end: more of 512 bytes, so that some may lie past the last refcount block.
SPARE, SMALL_SPARE = 6, 80

# The most bytes of a plain write, and of a write to a cluster of the backing file or at the file's end.
MOST_WRITTEN, FEW_BYTES = 1 << 16, 4096

# The histories of guest clusters before any snapshot, and the writes after one, as commands of qemu-io.
BEFORE = {
    "none": [],
    "data": ["write"],
    "compressed": ["write -c"],
    "rewritten": ["write -c", "write"],
    "kept": ["write", "write -z"],
    "hole": ["write", "write -z -u"],
    "discarded": ["write", "discard"],
}
AFTER = ["write", "write", "write -c", "write -z", "write -z -u", "discard"]

# The shares of a compressed cluster that are random bytes. The rest are zeros.
ROUGH = (0.4, 0.55, 0.7, 0.8)


@dataclass(frozen=True)
class Kind(Geometry):
    """The features of an image."""

    version: int = 3
    snapshots: int = 0
    is_backed: bool = False
    # whether `qemu-img convert -c` compresses all data anew before any snapshot
    is_converted: bool = False
    # its autoclear feature: none, `unknown` to all programs, or `bitmaps` with one bitmap
    autoclear: str = ""
    # the share of tables that the guest writes to after the last snapshot
    rewritten: float = 1

    def __str__(self):
        parts = [f"clusters of {self.cluster_size}", f"counters of {self.refcount_bits} bits"]
        parts += ["version 2"] * (self.version == 2)
        parts += [f"{self.snapshots} snapshots"] * (self.snapshots > 0)
        parts += ["a backing file"] * self.is_backed + ["converted"] * self.is_converted
        return ", ".join(parts + [f"autoclear {self.autoclear}"] * (self.autoclear != ""))

    @property
    def options(self):
        """The options of `qemu-img create`."""
        compat = "0.10" if self.version == 2 else "1.1"
        return f"cluster_size={self.cluster_size},refcount_bits={self.refcount_bits},compat={compat}"


def snapshot_name(number):
    """The name of a snapshot."""
    return f"snapshot-{number}"


class Maker:
    """Makes an image of a kind at a path, and draws all that the kind doesn't set."""

    def __init__(self, kind, path, chance):
        self.kind, self.path, self.chance = kind, path, chance
        self.cluster_size, self.entries = kind.cluster_size, kind.table_entries
        self.row = next((row for bits, row in ROWS.items() if kind.cluster_bits <= bits), 0)
        self.tasks = ["own"] * max(3, -(-self.row // self.entries)) + ["early", "missing"]
        chance.shuffle(self.tasks)
        self.size = len(self.tasks) * kind.mapped_by_table - self.part_of_cluster()
        self.writes, self.mapped = 0, set()

    def part_of_cluster(self):
        """A random number of bytes by which a disk or a file ends before its last cluster does."""
        return SECTOR * self.chance.randrange(self.cluster_size // SECTOR)

    def make(self):
        """Makes the image, and the files that it needs beside it."""
        self.write_patterns()
        self.create()
        self.fill(self.steps_before())
        if self.kind.is_converted:
            self.convert()
        for number in range(self.kind.snapshots):
            take_snapshot(self.path, snapshot_name(number))
            self.fill(self.steps_after(number + 1 == self.kind.snapshots))
        self.fill(self.steps_at_the_end())
        if self.kind.autoclear == "bitmaps":
            run(["qemu-img", "bitmap", "--add", "-f", "qcow2", self.path.name, "bitmap"], self.path.parent)
        self.finish()

    def tables(self, *tasks):
        """The L1 indices of the tables that have one of these tasks."""
        return [index for index, task in enumerate(self.tasks) if task in tasks]

    def touched(self, table):
        """Guest clusters of a table, some next to each other, in several sectors of it if it has these."""
        entries = self.entries
        spans = [(0, 8), (60, 68), (126, 131), (254, 260), (entries // 2, entries // 2 + 4), (entries - 6, entries)]
        indices = sorted({index for first, end in spans for index in range(first, min(end, entries))})
        # fewer of large clusters
        step = 1 if self.kind.cluster_bits < 18 else 3 if self.kind.cluster_bits < 20 else 6
        return [table * entries + index for index in indices[::step]]

    def rows(self):
        """The rows of guest clusters in the disk's own tables."""
        tables = self.tables("own")
        length = min(self.row // len(tables), self.entries - 16)
        return [range(first, first + length) for first in (table * self.entries + 8 for table in tables)]

    # Writes of the guest

    def steps_before(self):
        """The steps before any snapshot: rows of data, and histories of touched clusters."""
        rows = [row for row in self.rows() if row]
        steps = [("write row", row.start, len(row)) for row in rows]
        is_last = self.kind.snapshots == 0
        histories = [words for words in BEFORE.values() if "write -c" not in words or self.can_compress(is_last)]
        touched = [cluster for table in self.tables("own", "early") for cluster in self.touched(table)]
        for cluster in touched:
            history = self.chance.choice(histories)
            if "write -c" not in history or not any(cluster in row for row in rows):
                steps += [(word, cluster, 1) for word in history]
        return steps

    def steps_after(self, is_last):
        """The steps after a snapshot. Any write to the range of a table makes it the disk's own."""
        written = [t for t in self.tables("own") if not is_last or self.chance.random() < self.kind.rewritten]
        steps = [("write", self.chance.choice(self.touched(table)), 1) for table in written]
        touched = [cluster for table in written for cluster in self.touched(table)]
        for cluster in touched:
            word = self.chance.choice(AFTER)
            is_fit = word != "write -c" or self.can_compress(is_last) and cluster not in self.mapped
            if is_fit and self.chance.random() < 0.4:
                steps.append((word, cluster, 1))
        return steps

    def steps_at_the_end(self):
        """The last steps: writes of every second row, and discards of clusters all over it."""
        rows = [row for row in self.rows()[::2] if row]
        freed = [("discard", cluster, 1) for row in rows for cluster in row[::FREED]]
        return [("write row", row.start, len(row)) for row in rows] + freed

    def can_compress(self, is_last):
        """Whether steps may compress clusters. Refcounts of up to 2 bits can't count it if a snapshot shares it."""
        return is_last or self.kind.refcount_order > 1

    def fill(self, steps):
        """Runs steps by qemu-io: each is a word, the first guest cluster, and the number of clusters.

        Compressed writes go first, since qemu-io 7.2 fails to write some compressed data after it freed the cluster of
        other such data.
        """
        fill_image(self.path, [self.command(*step) for step in sorted(steps, key=lambda step: step[0] != "write -c")])
        self.mapped = {cluster for cluster, entry in Image(self.path).guest_entries() if entry.length}

    def command(self, word, first, count):
        """The command of qemu-io for a step. The bytes change with the writes. The disk may end within a cluster."""
        self.writes += 1
        start = first * self.cluster_size
        length = min(count * self.cluster_size, self.size - start)
        if word == "write":
            return f"write -P {self.writes % 255 + 1} {start} {min(length, MOST_WRITTEN)}"
        pattern = f"{self.path.stem}.pattern-{self.writes % len(ROUGH)}"
        words = {"write -c": f"write -c -s {pattern}", "write row": f"write -s {self.path.stem}.row"}
        return f"{words.get(word, word)} {start} {length}"

    # Files

    def write_patterns(self):
        """Makes the files with the bytes for rows, and for compressed clusters."""
        self.path.with_suffix(".row").write_bytes(self.chance.randbytes(self.row * self.cluster_size))
        for number, share in enumerate(ROUGH):
            rough = self.chance.randbytes(int(share * self.cluster_size))
            self.path.with_suffix(f".pattern-{number}").write_bytes(rough.ljust(self.cluster_size, b"\0"))

    def create(self):
        """Makes the image without data, and its backing file if it has one."""
        options = self.kind.options
        if self.kind.is_backed:
            backing = self.path.with_suffix(".backing")
            self.write_backing(backing)
            options += f",backing_file={backing.name},backing_fmt=raw"
        create_image(self.path, self.size, options)

    def write_backing(self, path):
        """Writes a backing file with bytes in many clusters, which ends in the range of the last table but one."""
        with open(path, "wb") as file:
            for cluster in (cluster for table in range(len(self.tasks)) for cluster in self.touched(table)):
                if self.chance.random() < 0.7:
                    file.seek(cluster * self.cluster_size)
                    file.write(self.chance.randbytes(min(self.cluster_size, FEW_BYTES)))
            end = (len(self.tasks) - 1) * self.kind.mapped_by_table
            file.truncate(end - SECTOR * self.chance.randrange(self.entries))

    def convert(self):
        """Writes the image anew, with all data compressed."""
        plain = self.path.with_suffix(".plain")
        self.path.rename(plain)
        words = ["-c", "-f", "qcow2", "-O", "qcow2", "-o", self.kind.options, plain.name, self.path.name]
        run(["qemu-img", "convert", *words], self.path.parent)

    def finish(self):
        """Adds free clusters with bytes to the end of the file, which ends within the last of them.

        Sets an autoclear feature that no program knows, if the image has it.
        """
        with open(self.path, "r+b") as file:
            end = self.kind.clusters_of(file.seek(0, 2))
            spare = range(end, end + (SPARE if self.kind.cluster_bits > 9 else SMALL_SPARE))
            for cluster in spare:
                file.seek(cluster * self.cluster_size)
                file.write(self.chance.randbytes(min(self.cluster_size, FEW_BYTES)))
            file.truncate(spare.stop * self.cluster_size - self.part_of_cluster())
            if self.kind.autoclear == "unknown":
                file.seek(AUTOCLEAR_OFFSET)
                file.write(b"\x80")
