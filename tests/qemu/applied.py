"""Lists of edits that `qmeta apply` makes in an image, one after the other, compared with predictions."""

import os
import random
from hashlib import blake2b

from .edits import Drawer, Edit, Expected, owned_tables
from .faults import REFCOUNT_RANGE
from .image import COMPRESSED, Image
from .kinds import Kind, Maker, snapshot_name
from .tools import qemu_check_counts, run
from .trials import Trial

# The number of lists for each image.
LISTS = 11

# The names of edits.
NAMES = ["discard", "zero", "keep", "map"]


def kind_of(order, cluster_bits, chance):
    """Draws the kind of an image. Refcounts of 1 bit can't count clusters that a snapshot shares."""
    version = 2 if order == 4 and cluster_bits % 2 else 3
    snapshots = chance.randrange(1, 3) if order > 0 else 0
    is_backed = chance.random() < 1 / 3
    # refcounts of up to 8 bits can't count all the compressed data in a cluster that a snapshot shares
    is_converted = not is_backed and (order > 3 or snapshots == 0) and chance.random() < 1 / 3
    autoclear = "unknown" if version == 3 and chance.random() < 1 / 3 else ""
    return Kind(cluster_bits, order, version, snapshots, is_backed, is_converted, autoclear, chance.choice([0.7, 1, 1]))


# The content of files


def digest(stored, unit):
    """The digest of a unit's bytes, of which zeros at the end may be missing, or None if all are zeros."""
    if stored == bytes(len(stored)):
        return None
    return blake2b(stored.ljust(unit, b"\0"), digest_size=16).hexdigest()


def data_of(file):
    """The start and the end of each part of a file that isn't a hole."""
    place, end = 0, file.seek(0, 2)
    while place < end:
        try:
            place = os.lseek(file.fileno(), place, os.SEEK_DATA)
        except OSError:
            # the rest is a hole
            return
        hole = os.lseek(file.fileno(), place, os.SEEK_HOLE)
        yield place, hole
        place = hole


def contents(path, unit):
    """The digests of the units of a file that aren't all zeros, by their numbers."""
    found = {}
    with open(path, "rb") as file:
        for start, end in data_of(file):
            first, last = start // unit, -(-end // unit)
            stored = os.pread(file.fileno(), (last - first) * unit, first * unit)
            for number in range(first, last):
                place = (number - first) * unit
                found[number] = digest(stored[place : place + unit], unit)
    return without_zeros(found)


def without_zeros(units):
    """The units that aren't all zeros."""
    return {number: told for number, told in units.items() if told is not None}


# An image and its lists


class ListTrial(Trial):
    """An image, and the lists that `qmeta` makes in it one after the other."""

    def __init__(self, order, cluster_bits, qmeta, folder):
        self.chance = random.Random(f"apply {order} {cluster_bits}")
        path = folder / f"image-{order}-{cluster_bits}.qcow2"
        super().__init__(kind_of(order, cluster_bits, self.chance), path, qmeta)
        self.cluster_size, self.backing = self.kind.cluster_size, {}
        self.same, self.same_items = self.problems.same, self.problems.same_items

    def attempt(self):
        """Makes the image and its lists."""
        Maker(self.kind, self.path, self.chance).make()
        self.look()
        self.leak_one()
        for number in range(LISTS):
            # after a problem the next list's prediction doesn't hold
            if not self.problems:
                self.try_list(f"list {number}")
        self.try_small_refcount()

    # The content of the image

    def look(self):
        """Reads the state of the image that the lists are compared with."""
        if self.kind.is_backed:
            self.backing = contents(self.path.with_suffix(".backing"), self.cluster_size)
        self.read()
        self.leaks = self.checked("the new image")
        self.disk = self.read_by_qemu()
        self.snapshots = self.read_snapshots()

    def read(self):
        """Reads the tables of the image, and the bytes of its clusters."""
        self.image, self.stored = Image(self.path).read(), contents(self.path, self.cluster_size)

    def read_by_qemu(self, *words):
        """The digests of the guest clusters of the disk, or of a snapshot, by `qemu-img convert`."""
        raw = self.path.with_suffix(".raw")
        run(["qemu-img", "convert", "-f", "qcow2", "-O", "raw", *words, self.path.name, raw.name], self.path.parent)
        read = contents(raw, self.cluster_size)
        raw.unlink()
        return read

    def read_snapshots(self):
        """The digests of each snapshot's guest clusters."""
        return [self.read_by_qemu("-l", snapshot_name(number)) for number in range(self.kind.snapshots)]

    def checked(self, what):
        """The number of leaks that `qemu-img check` finds. Anything worse is a problem."""
        counts = qemu_check_counts(self.path)
        self.same(f"{what}: corruptions, errors", (counts["corruptions"], counts["check-errors"]), (0, 0))
        return counts["leaks"]

    def leak_one(self):
        """Makes some images leak a cluster, except those with autoclear features, which `qmeta count` clears."""
        if self.kind.autoclear == "" and self.chance.random() < 1 / 4:
            self.count(self.path, "inc", max(self.image.refcounts) + 1)
            self.read()
            self.leaks = self.checked("the image with a leak")
            self.same("leaks", self.leaks, 1)

    def count(self, path, step, cluster):
        """Makes a step of the refcount of a cluster, if a block counts it."""
        place = self.image.refcount_place(cluster)
        if place is not None:
            block, index = place
            run([self.qmeta, "count", path.name, str(block), f"{step}:{index}"], path.parent)

    # Lists

    def try_list(self, what):
        """Draws a list, plans it and makes it, and compares the results."""
        is_sound = self.chance.random() < 3 / 5
        names = self.chance.choices(NAMES, k=self.chance.randrange(1, 7))
        edits = Drawer(self.image, self.chance).draw(names, is_sound)
        words = [edit.word(self.chance, self.cluster_size) for edit in edits]
        what += f", {' '.join(words)}"
        expected = Expected(self.image, edits)
        self.compare_runs(what, self.path, words, expected, self.stored)
        self.counts[expected.fault or "made"] += 1
        self.counts["lists"] += 1
        if not expected.fault:
            self.compare_made(what, expected)

    def compare_runs(self, what, path, words, expected, before):
        """Plans a list and makes it, and compares the output, and the file's bytes if they must stay."""
        outcome = (0, expected.printed(), "") if not expected.fault else (1, "", f"qmeta: fault {expected.fault}\n")
        for form in ("plan", "run"):
            told = ["plan"] if form == "plan" else []
            ended = run([self.qmeta, "apply", path.name, *told, *words], path.parent, ())
            self.same(f"{what}: {form}", (ended.returncode, ended.stdout, ended.stderr), outcome)
            if form == "plan" or expected.fault:
                self.same_items(f"{what}: {form}: bytes of clusters", contents(path, self.cluster_size), before)

    def compare_made(self, what, expected):
        """Compares the image after a list, and keeps its state for the next one."""
        old, old_stored, disk = self.image, self.stored, self.disk_after(expected)
        self.read()
        self.same_items(f"{what}: entries of guest clusters", dict(self.image.guest_entries()), expected.entries)
        self.same_items(f"{what}: counters of clusters", self.image.refcounts, expected.refcounts())
        tables = ((image.l1_table, image.refcount_blocks) for image in (self.image, old))
        self.same(f"{what}: other tables", *tables)
        self.same(f"{what}: autoclear features", self.image.header.autoclear_features != 0, False)
        offsets = [*old.l2_tables, *old.refcount_blocks.values(), *([0] if old.header.autoclear_features else [])]
        written = {offset // self.cluster_size for offset in offsets}
        both = (self.stored, old_stored)
        kept = ({unit: told for unit, told in stored.items() if unit not in written} for stored in both)
        self.same_items(f"{what}: bytes of other clusters", *kept)
        self.same(f"{what}: leaks", self.checked(what), self.leaks)
        self.disk = self.read_by_qemu()
        self.same_items(f"{what}: bytes of guest clusters", self.disk, disk)
        for number, snapshot in enumerate(self.read_snapshots()):
            self.same_items(f"{what}: bytes of {snapshot_name(number)}", snapshot, self.snapshots[number])

    def disk_after(self, expected):
        """The digests that the disk must have after a list, from those before it and the bytes of the file."""
        disk = dict(self.disk)
        for edit in expected.edits:
            clusters = expected.range_of(edit)
            disk = {cluster: told for cluster, told in disk.items() if cluster not in clusters}
            if edit.name == "discard":
                disk.update({cluster: told for cluster, told in self.backing.items() if cluster in clusters})
            elif edit.name == "map":
                disk[clusters.start] = self.host_digest(edit.cluster, clusters.start)
        return without_zeros(disk)

    def host_digest(self, host_cluster, cluster):
        """The digest of a host cluster, as a guest cluster reads it. The disk may end within that."""
        length = min(self.cluster_size, self.image.header.size - cluster * self.cluster_size)
        return digest(self.image.bytes_at(host_cluster * self.cluster_size, length), self.cluster_size)

    def try_small_refcount(self):
        """Discards, in a copy, a cluster whose refcount was lowered to 0."""
        owned = owned_tables(self.image)
        for cluster, entry in self.image.guest_entries():
            is_owned = cluster // self.kind.table_entries in owned
            if entry.length and is_owned and not entry.bits & COMPRESSED:
                self.discard_uncounted(cluster, entry.offset // self.cluster_size)
                return

    def discard_uncounted(self, cluster, host_cluster):
        """Lowers the refcount of a host cluster to 0 in a copy, and discards the guest cluster there."""
        copy = self.path.with_suffix(".copy")
        run(["cp", self.path.name, copy.name], self.path.parent)
        for _ in range(self.image.refcount(host_cluster)):
            self.count(copy, "dec", host_cluster)
        edits = [Edit("discard", cluster * self.cluster_size, self.cluster_size)]
        expected = Expected(Image(copy).read(), edits)
        self.same("the fault of a counter that is too small", expected.fault, REFCOUNT_RANGE)
        words = [edits[0].word(self.chance, self.cluster_size)]
        before = contents(copy, self.cluster_size)
        self.compare_runs(f"a small counter, {words[0]}", copy, words, expected, before)
        self.counts["small counters"] += 1
