"""Cuts of a run of `qmeta`: its writes and syncs, and the images that a crash may leave; and those of `qmeta apply`.

A device writes a sector as a whole or not at all, and all before a sync before all after it.
"""

import os
import random
import re
from itertools import zip_longest
from typing import NamedTuple

from .edits import Drawer
from .image import AUTOCLEAR_OFFSET, BITMAPS_AGREE, FEATURES_LENGTH, SECTOR, Image
from .kinds import Maker
from .tools import ToolFailed, qemu_check_counts, run
from .trials import Trial

# The edits of a run.
NAMES = ["discard"] * 8 + ["zero"] * 6 + ["keep"] * 6 + ["map"] * 9

# The random cuts between two syncs, those within a write, and the sectors of which each is missing, and each is alone.
RANDOM_CUTS, TORN_CUTS, SINGLES = 48, 3, 40

# The most bytes of a write that strace shows, and the traced calls. A call of OTHERS, or `mmap`, of the image is a
# failure.
MOST_BYTES = 100_000_000
WRITES = {"write", "pwrite64"}
OTHERS = {"writev", "pwritev", "pwritev2", "ftruncate", "fallocate", "copy_file_range", "sync_file_range", "sendfile"}
SYNCS = {"fsync", "fdatasync"}
DUPLICATES = {"dup", "dup2", "dup3", "fcntl"}
CALLS = WRITES | OTHERS | SYNCS | DUPLICATES | {"openat", "open", "close", "lseek", "mmap"}
CALL = re.compile(r"(\w+)\((.*)\) += (-?\d+|0x[0-9a-f]+)")

# The names of the four parts of a run, by their content.
PARTS = ("autoclear features", "what rises", "tables", "what falls")

# Orders of the parts that no program may have. A pair is two parts without a sync between them.
WRONG_ORDERS = {
    "what falls before the tables": (0, 1, 3, 2),
    "what rises after the tables": (0, 2, 1, 3),
    "no sync after the tables": (0, 1, (2, 3)),
    "no sync before the tables": (0, (1, 2), 3),
}


class Write(NamedTuple):
    """A write to a file: its offset and its bytes."""

    offset: int
    bytes: bytes


class Opened:
    """An open file with its position, which duplicated descriptors share."""

    def __init__(self):
        self.place = 0


class Piece(NamedTuple):
    """The change of a write within a sector: the offset, the bytes, and the number of the write."""

    offset: int
    bytes: bytes
    write: int


class Cut(NamedTuple):
    """The numbers of the pieces that reach the disk, and their description in words."""

    words: str
    pieces: tuple


# Recording a run


def text_of(quoted):
    """The bytes of a string of strace, all of which are hexadecimal escapes."""
    return bytes.fromhex(quoted.strip('"').replace("\\x", ""))


def duplicates(call, words):
    """Whether a call makes another descriptor of an open file, as two commands of `fcntl` do."""
    return call in DUPLICATES and (call != "fcntl" or words[1] in ("F_DUPFD", "F_DUPFD_CLOEXEC"))


def parts_of(log, name):
    """The lists of writes to a file of that name between its syncs. The last one has those after the last sync."""
    opened, parts = {}, [[]]
    for call, arguments, returned in (found.groups() for found in map(CALL.match, log) if found):
        words = arguments.split(", ")
        if call in ("open", "openat"):
            path = words[0 if call == "open" else 1]
            if text_of(path) == name.encode():
                opened[returned] = Opened()
            continue
        file = opened.get(words[4] if call == "mmap" else words[0])
        if file is None or returned.startswith("-"):
            continue
        if duplicates(call, words):
            opened[returned] = file
        elif call == "close":
            del opened[words[0]]
        elif call == "lseek":
            file.place = int(returned)
        elif call in SYNCS:
            parts.append([])
        elif call in WRITES:
            parts[-1].append(Write(file.place if call == "write" else int(words[3]), text_of(words[1])[: int(returned)]))
            file.place += int(returned) if call == "write" else 0
        elif call != "fcntl":
            raise ToolFailed(f"the call {call} of the image isn't understood")
    return parts


def record(path, words, statuses=(0,)):
    """Runs a command on the image under strace, and returns the parts of its writes."""
    log = path.with_suffix(".log")
    trace = ["strace", "-o", log.name, "-xx", "-s", str(MOST_BYTES), "-e", f"trace={','.join(sorted(CALLS))}"]
    run([*trace, *words], path.parent, statuses)
    with open(log, encoding="ascii") as lines:
        parts = parts_of(lines, path.name)
    log.unlink()
    return parts if parts[-1] else parts[:-1]


def wrong_places(parts, image):
    """The writes of a record to places other than those of their part, in words."""
    size, blocks = image.header.cluster_size, set(image.refcount_blocks.values())
    places = [{0}, blocks, set(image.l2_tables), blocks]
    for name, part, offsets in zip(PARTS, parts, places):
        elsewhere = [write.offset for write in part if write.offset // size * size not in offsets]
        if elsewhere:
            yield f"{name}: a write to {elsewhere[0]:#x}"
    field = (AUTOCLEAR_OFFSET, FEATURES_LENGTH)
    if any((write.offset, len(write.bytes)) != field for part in parts[:1] for write in part):
        yield "what is written to the header isn't the field of autoclear features"


# Cuts


def pieces_of(part, file):
    """The pieces of a part's writes that change something, in a file with all earlier parts."""
    pieces, seen = [], set()
    for number, write in enumerate(part):
        place, end = write.offset, write.offset + len(write.bytes)
        while place < end:
            sector = place // SECTOR
            after = min((sector + 1) * SECTOR, end)
            stored = write.bytes[place - write.offset : after - write.offset]
            if sector in seen or os.pread(file, len(stored), place) != stored:
                pieces.append(Piece(place, stored, number))
                seen.add(sector)
            place = after
    return pieces


def drawn(numbers, chance):
    """Some of the numbers, each with the same chance."""
    share = chance.random()
    return tuple(number for number in numbers if chance.random() < share)


def all_cuts(pieces, chance):
    """The sets of pieces that may reach the disk if a crash cuts a part off."""
    numbers = range(len(pieces))
    for count in range(len(pieces) + 1):
        yield Cut(f"the first {count} sectors", tuple(numbers[:count]))
    for write in sorted({piece.write for piece in pieces}):
        inside = [number for number in numbers if pieces[number].write == write]
        yield Cut(f"without write {write}", tuple(number for number in numbers if number not in inside))
        for _ in range(TORN_CUTS if len(inside) > 1 else 0):
            yield Cut(f"write {write} in pieces", tuple(numbers[: inside[0]]) + drawn(inside, chance))
    for single in chance.sample(numbers, min(SINGLES, len(numbers))):
        yield Cut(f"without sector {single}", tuple(number for number in numbers if number != single))
        yield Cut(f"sector {single} alone", (single,))
    for _ in range(RANDOM_CUTS):
        yield Cut("drawn sectors", drawn(numbers, chance))


class Working:
    """A copy of an original, put into the states that a crash may leave."""

    def __init__(self, path, original):
        self.path = path
        run(["cp", original.name, path.name], path.parent)
        self.file = os.open(path, os.O_RDWR)

    def write(self, pieces):
        """Writes pieces, and returns the pieces that undo them."""
        undone = []
        for piece in pieces:
            undone.append(piece._replace(bytes=os.pread(self.file, len(piece.bytes), piece.offset)))
            os.pwrite(self.file, piece.bytes, piece.offset)
        return undone[::-1]

    def cuts(self, parts, chance):
        """Puts the file into each state that a cut may leave, and yields its description. At the end all is written."""
        for name, part in parts:
            pieces, seen = pieces_of(part, self.file), set()
            for cut in all_cuts(pieces, chance):
                if frozenset(cut.pieces) not in seen:
                    seen.add(frozenset(cut.pieces))
                    undone = self.write([pieces[number] for number in cut.pieces])
                    yield f"{name}, {cut.words} of {len(pieces)}"
                    self.write(undone)
            self.write(pieces)

    def close(self):
        """Removes the file."""
        os.close(self.file)
        self.path.unlink()


# Checks of the images


def found_by_qemu(path):
    """The numbers of leaks and of worse findings of `qemu-img check`."""
    counts = qemu_check_counts(path)
    return counts["leaks"], counts["corruptions"] + counts["check-errors"]


class CutTrial(Trial):
    """An image, one run of `apply` on it, and the run's cuts. A share of those that leak is repaired."""

    def __init__(self, number, kind, qmeta, folder, share):
        super().__init__(kind, folder / f"image-{number}.qcow2", qmeta)
        self.share, self.chance = share, random.Random(f"cut {number}")
        self.before = self.path.with_suffix(".before")
        self.counts["images"] = 1
        self.parts = []

    def attempt(self):
        """Makes the image, runs `apply` on it, and checks all cuts of that run, and of wrong orders of it."""
        Maker(self.kind, self.path, self.chance).make()
        self.run_once()
        self.cut_all()
        self.cut_wrong_orders()

    def run_once(self):
        """Runs `apply` once, and checks its writes and the image."""
        run(["cp", self.path.name, self.before.name], self.path.parent)
        if found_by_qemu(self.path) != (0, 0):
            self.problems.append("the image isn't consistent before the run")
        image = Image(self.path).read()
        edits = Drawer(image, self.chance).draw(NAMES, True)
        words = [edit.word(self.chance, self.kind.cluster_size) for edit in edits]
        self.parts = record(self.path, [self.qmeta, "apply", self.path.name, *words])
        self.problems += wrong_places(self.parts, image)
        leaks, errors = found_by_qemu(self.path)
        if errors or leaks and self.kind.autoclear != "bitmaps":
            self.problems.append(f"after the run: {errors} errors and {leaks} leaks")
        if [bool(part) for part in self.parts] != [self.kind.autoclear != "", True, True, True]:
            self.problems.append(f"not the four parts, but writes by part: {[len(part) for part in self.parts]}")

    def has_leaks_alone(self, words, path):
        """Whether an image has leaks and nothing worse, which is a problem. Counts the image."""
        leaks, errors = found_by_qemu(path)
        self.counts["wrong" if errors else "leaking" if leaks else "clean"] += 1
        if errors:
            self.problems.append(f"{words}: {errors} errors and {leaks} leaks")
        return leaks > 0 and errors == 0

    def cut_all(self):
        """Checks all cuts of the run, and repairs a share of those that leak."""
        working = Working(self.path.with_suffix(".cut"), self.before)
        for words in working.cuts(zip_longest(PARTS, self.parts, fillvalue=()), self.chance):
            self.counts["cuts"] += 1
            if self.has_leaks_alone(words, working.path) and self.chance.random() < self.share:
                self.repair(words, working.path)
        if working.path.read_bytes() != self.path.read_bytes():
            self.problems.append("the record doesn't give the file that the run left")
        working.close()

    def repair(self, cut, path):
        """Frees the leaks of a copy, which must then be consistent."""
        copy = path.with_suffix(".copy")
        run(["cp", path.name, copy.name], path.parent)
        words = ["qemu-img", "check", "-q", "-f", "qcow2", "-r", "leaks", copy.name]
        has_bitmaps = Image(copy).header.autoclear_features & BITMAPS_AGREE != 0
        if self.kind.snapshots == 0 and not has_bitmaps:
            words = [self.qmeta, "check", copy.name, "repair"]
        ended = run(words, path.parent, ())
        self.counts["repaired"] += 1
        if ended.returncode != 0 or found_by_qemu(copy) != (0, 0):
            self.problems.append(f"{cut}: leaks that weren't freed, status {ended.returncode} of the repair")

    def cut_wrong_orders(self):
        """Counts the wrong orders of which some cut has an error."""
        for name, order in WRONG_ORDERS.items() if len(self.parts) == len(PARTS) else []:
            numbers = [number if isinstance(number, tuple) else (number,) for number in order]
            parts = [("", [write for part in pair for write in self.parts[part]]) for pair in numbers]
            working = Working(self.path.with_suffix(".wrong"), self.before)
            self.counts[name] += any(found_by_qemu(working.path)[1] for _ in working.cuts(parts, self.chance))
            working.close()
