"""Cuts of a run of `qmeta check IMAGE repair`, and the images that a crash may leave.

Each must keep what a repair promises of every moment, and another repair must end as the first one would have.
"""

import random
from itertools import count, zip_longest
from typing import NamedTuple

from .check import Check
from .cuts import Working, found_by_qemu, record
from .draft import damaged_draft, put_refcount, write_entry
from .image import COMPRESSED, COPIED, CORRUPT, DIRTY, ENTRY_SIZE, FEATURES_LENGTH, INCOMPATIBLE_OFFSET, Image, Refused
from .samples import SAMPLES, make_sample
from .tools import run
from .trials import Trial

# The names of the six parts of a repair, by their content.
PARTS = ("header", "flags cleared", "what rises", "what falls", "flags set", "marks")

# The statuses of a repair that isn't refused: those of a check of what is left.
STATUSES = (0, 3, 4)

# The most damages of an image of QEMU's tools.
MOST_DAMAGES = 6


class WrongOrder(NamedTuple):
    """An order of the parts that no program may have. It shows only if a part moves before others that have writes.

    A pair in the order is two parts without a sync between them.
    """

    order: tuple
    moved: int
    before: tuple


WRONG_ORDERS = {
    "marks cleared first": WrongOrder((5, 0, 1, 2, 3, 4), 5, (1, 2, 3, 4)),
    "no sync before the marks": WrongOrder((0, 1, 2, 3, (4, 5)), 5, (4,)),
    "flags set before refcounts": WrongOrder((0, 1, 4, 2, 3, 5), 4, (2, 3)),
    "no sync before flags are set": WrongOrder((0, 1, 2, (3, 4), 5), 4, (3,)),
}


# Damages of an image of QEMU's tools, all of which a repair can make right


def change_refcount(image, chance):
    """Changes the refcount of a cluster, or of none."""
    cluster = chance.choice([*image.refcounts, chance.randrange(image.header.clusters_of(image.length))])
    place = image.refcount_place(cluster)
    if place is not None:
        offset, size = place[0] * image.header.cluster_size, image.header.cluster_size
        stored = bytearray(image.bytes_at(offset, size))
        changed = image.refcount(cluster) + chance.choice([-1, -1, 1, 1, 2])
        put_refcount(stored, 0, image.header, place[1], min(max(changed, 0), image.header.greatest_refcount))
        write_bytes(image.path, offset, stored)


def turn_flag(image, chance):
    """Flips the copied flag of an L1 entry, or of an L2 entry that isn't compressed."""
    tables = {image.header.l1_table_offset: image.l1_table, **image.l2_tables}
    offset = chance.choice(list(tables))
    entries = [entry for entry in tables[offset] if entry.length and not entry.bits & COMPRESSED]
    if entries:
        entry = chance.choice(entries)
        write_entry(image.path, offset, entry.index, entry.bits ^ COPIED)


def mark(image, chance):
    """Marks an image of version 3 dirty, corrupt, or both."""
    if image.header.version > 2:
        features = image.header.incompatible_features | chance.choice([DIRTY, CORRUPT, DIRTY | CORRUPT])
        write_bytes(image.path, INCOMPATIBLE_OFFSET, features.to_bytes(FEATURES_LENGTH, "big"))


DAMAGES = [change_refcount] * 4 + [turn_flag] * 3 + [mark]


def write_bytes(path, offset, stored):
    """Writes bytes to a place of an image."""
    with open(path, "r+b") as file:
        file.seek(offset)
        file.write(stored)


# Trials


class RepairTrial(Trial):
    """A damaged image, one repair of it, and the repair's cuts. A share of these is repaired again.

    The image is one of QEMU's tools, by its sample's name, or drawn at random without a name.
    """

    def __init__(self, number, name, qmeta, folder, share):
        super().__init__(name or "drawn", folder / f"image-{number}" / f"{name or 'drawn'}.qcow2", qmeta)
        self.number, self.share, self.chance = number, share, random.Random(f"repair {number}")
        self.sample = next((sample for sample in SAMPLES if sample.name == name), None)
        self.before = self.path.with_suffix(".before")
        self.parts = []

    def attempt(self):
        """Makes the image, repairs it, and checks all cuts of that run, and of wrong orders of it."""
        self.path.parent.mkdir()
        self.make()
        self.counts["images"] = 1
        self.copy(self.path, self.before)
        self.check = Check(self.before)
        self.flags = list(self.check.flags())
        self.is_sound = found_by_qemu(self.before)[1] == 0 and not self.check.differences()
        ended = record(self.path, [self.qmeta, "check", self.path.name, "repair"], STATUSES)
        self.parts = [part for part, _ in zip_longest(ended, PARTS, fillvalue=())]
        if len(self.parts) > len(PARTS):
            self.problems.append(f"not six parts, but writes by part: {[len(part) for part in self.parts]}")
        self.after = self.path.read_bytes()
        self.cut_all()
        self.cut_wrong_orders()

    def make(self):
        """Makes an image that has something to repair, and that a repair accepts."""
        if self.sample:
            make_sample(self.sample, self.path.parent)
        for attempt in count():
            self.make_anew(random.Random(f"repair {self.number} {attempt}"))
            try:
                check = Check(self.path, to_repair=True)
            except Refused:
                continue
            if check.refusal() is None and next(check.clusters_to_repair(), None) is not None:
                break

    def make_anew(self, chance):
        """Draws an image, or damages that of QEMU's tools further."""
        if self.sample:
            for _ in range(chance.randrange(1, MOST_DAMAGES + 1)):
                chance.choice(DAMAGES)(Image(self.path).read(), chance)
            return
        draft, _ = damaged_draft(chance)
        draft.write(self.path)
        self.path.with_suffix(".data").touch()

    def copy(self, path, copy):
        """Copies a file of the trial."""
        run(["cp", path.name, copy.name], self.path.parent)

    def cut_all(self):
        """Checks all cuts of the run, and repairs a share of them again."""
        working = Working(self.path.with_suffix(".cut"), self.before)
        for words in working.cuts(zip(PARTS, self.parts), self.chance):
            self.counts["cuts"] += 1
            self.problems += [f"{words}: {broken}" for broken in self.broken(working.path)]
            if self.is_sound and found_by_qemu(working.path)[1] > Check(working.path).totals["late"]:
                self.problems.append(f"{words}: errors but flags that aren't set yet, where only leaks were before")
            if self.chance.random() < self.share:
                self.repair_again(words, working.path)
        if not self.is_repaired(working.path):
            self.problems.append("the record doesn't give the file that the repair left")
        working.close()

    def is_repaired(self, path):
        """Whether an image is as the repair left it. Bytes past an end are zeros."""
        found = path.read_bytes()
        length = max(len(found), len(self.after))
        return found.ljust(length, b"\0") == self.after.ljust(length, b"\0")

    def repair_again(self, words, path):
        """Repairs a copy of a cut, which must end as the first repair did."""
        copy = path.with_suffix(".again")
        self.copy(path, copy)
        run([self.qmeta, "check", copy.name, "repair"], path.parent, STATUSES)
        self.counts["again"] += 1
        if not self.is_repaired(copy):
            self.problems.append(f"{words}: another repair doesn't end as the first")

    def broken(self, path):
        """What an image that a cut left breaks of the promises of a repair, in words."""
        cut, header = Image(path), self.check.header
        for cluster, references in self.check.references.items():
            refcount = cut.refcount(cluster)
            if refcount < min(references, self.check.image.refcount(cluster)):
                yield f"cluster {cluster} has refcount {refcount} and {references} references"
        for flag in self.flags:
            bits = int.from_bytes(cut.bytes_at(flag.table + ENTRY_SIZE * flag.entry.index, ENTRY_SIZE), "big")
            cluster = flag.entry.offset // header.cluster_size
            if bits | COPIED != flag.entry.bits | COPIED:
                yield f"{flag.place} refers to something else"
            elif bits & COPIED & ~flag.entry.bits and flag.is_counted and cut.refcount(cluster) != 1:
                yield f"{flag.place} is copied, and its cluster has refcount {cut.refcount(cluster)}"
        has_marks, keeps_marks = (header.is_dirty or header.is_corrupt), (cut.header.is_dirty or cut.header.is_corrupt)
        if has_marks and not keeps_marks and not self.is_repaired(path):
            yield "no mark, and the repair isn't whole"

    def cut_wrong_orders(self):
        """Counts the wrong orders that could show in this image, and those of which some cut breaks a promise."""
        for name, (order, moved, before) in WRONG_ORDERS.items():
            if not self.parts[moved] or not any(self.parts[number] for number in before):
                continue
            numbers = [number if isinstance(number, tuple) else (number,) for number in order]
            parts = [("", [write for part in pair for write in self.parts[part]]) for pair in numbers]
            working = Working(self.path.with_suffix(".wrong"), self.before)
            self.counts[f"{name}, possible"] += 1
            self.counts[name] += any(any(self.broken(working.path)) for _ in working.cuts(parts, self.chance))
            working.close()
