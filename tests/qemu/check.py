"""Predicts the output of `qmeta check` on an image, and the bytes after its repair.

It is a second implementation of the definitions in docs/FORMAT.md, for images of features that the program knows, and
shares no code with it.
"""

import json
import re
import struct
from collections import Counter
from itertools import groupby
from typing import NamedTuple, Optional

from .draft import put_entry, put_features, put_refcount
from .faults import L1_SHORT, OVERLAP, REFCOUNT_RANGE, TABLE_PLACE, UNCOUNTED
from .image import BITMAPS, BITMAPS_AGREE, COMPRESSED, COPIED, CORRUPT, DIRTY, ENCRYPTION, ENTRY_SIZE, GREATEST_END
from .image import LUKS, SECTOR, ZERO, Entry, Image, Refused

# The offset and the length in the extension of an encryption header, and the most bytes of such a header.
SPAN, MOST_KEYS = struct.Struct(">QQ"), 1 << 25

# The kinds of lines, in the order of the last line, which has `past` only if there are any, and those that may destroy data.
KINDS = ("leaked", "missing", "shared", "false", "late")
HARMFUL = {"missing", "shared", "false", "past"}


def examine(image, to_repair):
    """Reads all parts of an image in the order of a check, and raises the fault in which that ends before any line."""
    header = image.header
    kinds = {kind for kind, _ in image.extensions}
    if header.nb_snapshots or header.autoclear_features & BITMAPS_AGREE and BITMAPS in kinds:
        raise Refused(UNCOUNTED)
    encryption_span(image)
    if to_repair and header.is_l1_short:
        raise Refused(L1_SHORT)
    spans = table_spans(image)
    if to_repair and any(is_past_end(image, *span) for span in spans):
        raise Refused(TABLE_PLACE)
    if any(offset + header.cluster_size > GREATEST_END for offset in image.refcount_blocks.values()):
        raise Refused(TABLE_PLACE)
    image.read()


def encryption_span(image):
    """The host offset and the length of the encryption header, none without one. Refuses keys in other clusters."""
    header = image.header
    named = [data for kind, data in image.extensions if kind == ENCRYPTION]
    if header.crypt_method < LUKS and not named:
        return 0, 0
    if header.crypt_method == LUKS and [len(data) for data in named] == [SPAN.size]:
        offset, length = SPAN.unpack(*named)
        if offset % header.cluster_size == 0 and length <= MOST_KEYS and offset + length <= GREATEST_END:
            return offset, length
    raise Refused(UNCOUNTED)


def table_spans(image):
    """The host offset and the length of each table and refcount block."""
    header = image.header
    spans = [(header.l1_table_offset, ENTRY_SIZE * header.l1_size)]
    spans += [(header.refcount_table_offset, header.refcount_table_clusters * header.cluster_size)]
    offsets = [*image.l2_offsets(), *image.refcount_blocks.values()]
    return spans + [(offset, header.cluster_size) for offset in offsets]


def is_past_end(image, offset, length):
    """Whether bytes have a cluster past the file's end. The file may end within its last cluster."""
    clusters_of = image.header.clusters_of
    return length > 0 and clusters_of(offset + length) > clusters_of(image.length)


class Flag(NamedTuple):
    """A copied flag: its entry, its table's host offset, its place in words, and whether its cluster has a refcount.

    A cluster of an external data file has none.
    """

    entry: Entry
    table: int
    place: str
    is_counted: bool


class Check:
    """The findings of a check of an image, and the output that the program must print."""

    def __init__(self, path, to_repair=False):
        self.image = Image(path)
        self.header = self.image.header
        examine(self.image, to_repair)
        self.spans = []
        self.fixed, self.l2, self.guest = Counter(), Counter(), Counter()
        self.count_references()
        self.references = self.fixed + self.l2 + self.guest
        self.first_named = {offset: index for index, offset in reversed(self.image.refcount_blocks.items())}
        self.totals, self.text = Counter(), ""
        self.add_cluster_lines()
        self.add_past_lines()
        for flag in self.flags():
            self.add_flag_line(flag)

    def refer(self, counts, offset, length):
        """Counts a reference to each cluster that these bytes touch."""
        if length:
            self.spans.append((offset, length))
            size = self.header.cluster_size
            counts.update(range(offset // size, (offset + length - 1) // size + 1))

    def count_references(self):
        """Counts the references to clusters: by the header, tables and blocks, by L1 entries, and by L2 entries."""
        self.refer(self.fixed, 0, 1)
        self.refer(self.fixed, self.header.l1_table_offset, ENTRY_SIZE * self.header.l1_size)
        table_length = self.header.refcount_table_clusters * self.header.cluster_size
        self.refer(self.fixed, self.header.refcount_table_offset, table_length)
        self.refer(self.fixed, *encryption_span(self.image))
        for offset in self.image.refcount_blocks.values():
            self.refer(self.fixed, offset, self.header.cluster_size)
        for entry in self.image.l1_table:
            self.refer(self.l2, entry.offset, entry.length)
            if entry.length and not self.header.is_external:
                for guest in self.image.l2_tables[entry.offset]:
                    self.refer(self.guest, guest.offset, guest.length)

    # The output of a check

    def finding(self, cluster):
        """The refcount of a cluster as it is reported, the number of its references, and whether it is shared."""
        references, l2 = self.references[cluster], self.l2[cluster]
        shared = self.fixed[cluster] > 0 and references > 1 or l2 > 0 and l2 != references
        refcount = self.image.refcount(cluster) if references or not self.is_counted_again(cluster) else 0
        return refcount, references, shared

    def is_counted_again(self, cluster):
        """Whether an earlier entry of the refcount table names the cluster's refcount block too."""
        index = cluster // self.header.block_refcounts
        return index in self.image.refcount_blocks and self.first_named[self.image.refcount_blocks[index]] < index

    def add_cluster_lines(self):
        """Adds the lines of clusters, one for clusters in a row with the same finding."""
        known = self.references.keys() | self.image.refcounts.keys()
        findings = {cluster: self.finding(cluster) for cluster in sorted(known)}
        self.wrong = [c for c, (refcount, references, shared) in findings.items() if refcount != references or shared]
        for first, count in runs_of(self.wrong, findings):
            refcount, references, shared = findings[first]
            is_of_kind = {"leaked": refcount > references, "missing": refcount < references, "shared": shared}
            for kind in filter(is_of_kind.get, is_of_kind):
                self.add_run(kind, first, count)

    def add_past_lines(self):
        """Adds the lines of clusters that have references though they begin past the file's end."""
        end = self.header.clusters_of(self.image.length)
        past = sorted(cluster for cluster in self.references if cluster >= end)
        for first, count in runs_of(past, {cluster: self.finding(cluster) for cluster in past}):
            self.add_run("past", first, count)

    def add_run(self, kind, first, count):
        """Adds the line of clusters in a row with the same finding."""
        refcount, references, _ = self.finding(first)
        self.text += f"{kind} {first} {count} {refcount} {references}\n"
        self.totals[kind] += count

    def flags(self):
        """The copied flags of all entries that refer to a cluster: those of L1 entries, each before its L2 table's.

        The flags of a table follow the first entry that names it.
        """
        named = set()
        for l1_entry in self.image.l1_table:
            if l1_entry.length:
                yield Flag(l1_entry, self.header.l1_table_offset, f"l1 {l1_entry.index}", True)
                if l1_entry.offset not in named:
                    yield from self.flags_of_table(l1_entry)
                named.add(l1_entry.offset)

    def flags_of_table(self, l1_entry):
        """The copied flags of an L2 table, whose compressed entries have none."""
        for entry in self.image.l2_tables[l1_entry.offset]:
            if entry.length and not entry.bits & COMPRESSED:
                guest = l1_entry.index * self.header.table_entries + entry.index
                place = f"{guest * self.header.cluster_size:#x}"
                yield Flag(entry, l1_entry.offset, place, not self.header.is_external)

    def is_wrong(self, flag):
        """Whether a copied flag contradicts the refcount of the cluster."""
        is_sole = not flag.is_counted or self.image.refcount(flag.entry.offset // self.header.cluster_size) == 1
        return bool(flag.entry.bits & COPIED) != is_sole

    def has_wrong_flags_again(self):
        """Whether an L2 table with a wrong flag is named by an L1 entry after the first one."""
        named = set()
        for l1_entry in self.image.l1_table:
            if l1_entry.length and l1_entry.offset in named and any(map(self.is_wrong, self.flags_of_table(l1_entry))):
                return True
            named.add(l1_entry.offset)
        return False

    def add_flag_line(self, flag):
        """Adds the line of a copied flag, if it is wrong."""
        cluster = flag.entry.offset // self.header.cluster_size
        refcount = self.image.refcount(cluster) if flag.is_counted else "none"
        if self.is_wrong(flag):
            kind = "false" if flag.entry.bits & COPIED else "late"
            self.text += f"{kind} {flag.place} {cluster} {refcount}\n"
            self.totals[kind] += 1

    def printed(self):
        """The program's output, and then its status if that isn't 0."""
        header = self.header
        marks = "dirty\n" * header.is_dirty + "corrupt\n" * header.is_corrupt
        short = f"short-l1 {header.l1_size} {header.l1_needed}\n" if header.is_l1_short else ""
        kinds = KINDS + ("past",) * ("past" in self.totals)
        last = " ".join(f"{kind} {self.totals[kind]}" for kind in kinds) if self.status() else "consistent"
        return f"{self.text}{marks}{short}{last}\n{self.status()}"

    def status(self):
        """The line of the status, if that isn't 0."""
        if self.header.is_corrupt or self.header.is_l1_short or HARMFUL & self.totals.keys():
            return "status 4\n"
        return "status 3\n" if self.totals else ""

    def object(self, name):
        """The output with the word `json`, for a file of this name, and then the status if that isn't 0."""
        header, totals = self.header, self.totals
        known = self.references.keys() | self.image.refcounts.keys()
        last = max(cluster for cluster in known if cluster < GREATEST_END // header.cluster_size)
        counts = self.entry_counts()
        members = {
            "image-end-offset": (last + 1) * header.cluster_size,
            "compressed-clusters": counts["compressed"],
            "total-clusters": header.guest_clusters,
            "corruptions": sum(totals[kind] for kind in ("missing", "past", "false", "late")) + header.is_l1_short,
            "check-errors": 0,
            "leaks": totals["leaked"],
            "shared": totals["shared"],
            "past": totals["past"],
            "false-flags": totals["false"],
            "late-flags": totals["late"],
            "dirty": header.is_dirty,
            "corrupt": header.is_corrupt,
            "allocated-clusters": counts["allocated"],
            "filename": name,
            "format": "qcow2",
            "fragmented-clusters": counts["fragmented"],
        }
        told = {name: value for name, value in members.items() if value or name == "check-errors"}
        return json_text(told) + self.status()

    def entry_counts(self):
        """The numbers of allocated, compressed and fragmented entries. A table counts once for each reference."""
        counts, size = Counter(), self.header.cluster_size
        for l1_entry in self.image.l1_table:
            if l1_entry.length:
                entries = [entry for entry in self.image.l2_tables[l1_entry.offset] if entry.length]
                standard = [entry.offset for entry in entries if not entry.bits & COMPRESSED]
                breaks = sum(after != before + size for before, after in zip(standard, standard[1:]))
                compressed = len(entries) - len(standard)
                counts.update(allocated=len(entries), compressed=compressed, fragmented=compressed + breaks)
        return counts

    def differences(self):
        """The rows of docs/DIFFERENCES.md by which `qemu-img check` counts otherwise in this image."""
        image, header, references = self.image, self.header, self.references
        size, length = header.cluster_size, -(-image.length // SECTOR) * SECTOR
        end = max(header.clusters_of(length), max(references) + 1)
        entries = [entry for table in image.l2_tables.values() for entry in table]
        compressed = (entry.bits & COMPRESSED for entry in entries)
        cases = {
            "past the end": any(offset + span - length >= size for offset, span in self.spans),
            "counters past the end": any(cluster >= end for cluster in image.refcounts),
            "past the greatest counter": max(references.values()) > header.greatest_refcount,
            "uses of a block": any(references[offset // size] > 1 for offset in image.refcount_blocks.values()),
            "refcounts of a block named again": any(map(self.is_counted_again, image.refcounts)),
            "only copied": any(not entry.length for entry in image.l1_table),
            "flags of a table named again": self.has_wrong_flags_again(),
            "compressed data outside": header.is_external and any(compressed),
            "zeros of the first cluster": header.is_external and any(entry.bits == COPIED | ZERO for entry in entries),
        }
        return [name for name, holds in cases.items() if holds]

    def clusters_to_repair(self):
        """The clusters of the lines that the program prints, the last line aside, and those past the file's end."""
        for words in map(str.split, self.text.splitlines()):
            if words[0] in ("false", "late"):
                yield int(words[-2])
            elif words[0] != "past":
                yield from range(int(words[1]), int(words[1]) + int(words[2]))

    # A repair

    def refusal(self):
        """The fault of the first cluster that a repair can't make right, if there is one."""
        for cluster in sorted(self.references):
            _, references, shared = self.finding(cluster)
            if shared:
                return OVERLAP
            if references > self.header.greatest_refcount and self.image.block_of(cluster) is not None:
                return REFCOUNT_RANGE
        return None

    def repaired(self, before):
        """The bytes of the image after a repair, from those before it, at least up to the last L2 table or block."""
        image, header = self.image, self.header
        ends = [offset + header.cluster_size for offset in [*image.l2_tables, *image.refcount_blocks.values()]]
        stored = bytearray(before).ljust(max([*ends, 0]), b"\0")
        for cluster in self.references.keys() | image.refcounts.keys():
            block = image.block_of(cluster)
            if block is not None:
                put_refcount(stored, block, header, cluster % header.block_refcounts, self.references[cluster])
        for flag in self.flags():
            self.put_flag(stored, flag)
        self.clear_marks(stored)
        return stored

    def clear_marks(self, stored):
        """Clears the marks in the header, if it has any and nothing stays wrong.

        Blocks count each wrong cluster then, and no cluster past the file's end has references.
        """
        header = self.header
        is_right = None not in map(self.image.block_of, self.wrong) and "past" not in self.totals
        if (header.is_dirty or header.is_corrupt) and is_right:
            features = header.incompatible_features & ~(DIRTY | CORRUPT)
            put_features(stored, features)

    def put_flag(self, stored, flag):
        """Makes a flag right: set if its cluster has one reference, or lies in an external data file.

        The flag of a cluster that no block counts stays as it is.
        """
        entry, cluster = flag.entry, flag.entry.offset // self.header.cluster_size
        if not flag.is_counted or self.image.block_of(cluster) is not None:
            is_set = not flag.is_counted or self.references[cluster] == 1
            put_entry(stored, flag.table, entry.index, entry.bits & ~COPIED | is_set * COPIED)


def runs_of(clusters, findings):
    """The first of clusters in a row with the same finding, and how many they are, for each such row."""
    for _, run in groupby(enumerate(clusters), lambda pair: (pair[1] - pair[0], findings[pair[1]])):
        members = [cluster for _, cluster in run]
        yield members[0], len(members)


def json_text(members):
    """An object in QEMU's form, in which characters other than printable ASCII are escaped in capital letters."""
    text = json.dumps(members, indent=4)
    return re.sub(r"\\u([0-9a-f]{4})", lambda found: "\\u" + found[1].upper(), text).replace("\x7f", "\\u007F") + "\n"


class Printed(NamedTuple):
    """The predicted output of `qmeta check`, for people and in JSON, and why `qemu-img check` counts otherwise."""

    text: str
    json: str
    differences: list


def printed_by_check(path):
    """Predicts the output of `qmeta check` on an image, for its file's name without a folder."""
    try:
        check = Check(path)
    except Refused as refused:
        fault = f"qmeta: fault {refused.fault}\nstatus 1\n"
        return Printed(fault, fault, ["refused"])
    return Printed(check.printed(), check.object(path.name), check.differences())


class Repair(NamedTuple):
    """The predicted result of a repair: its fault, if any, and the bytes afterwards, which count from `first` on."""

    fault: Optional[int]
    bytes: bytes
    first: int = 0


def repair_of(path, before):
    """Predicts the result of `qmeta check IMAGE repair` for an image with these bytes.

    If the header has autoclear features, the first cluster doesn't count, since the repair writes the header anew.
    """
    try:
        check = Check(path, to_repair=True)
    except Refused as refused:
        return Repair(refused.fault, before)
    fault = check.refusal()
    if fault:
        return Repair(fault, before)
    return Repair(None, check.repaired(before), check.header.cluster_size if check.header.autoclear_features else 0)


def uncounted_is_left(path):
    """Whether all findings of a check that a repair could make right are about clusters that no block counts."""
    check = Check(path)
    return all(check.image.block_of(cluster) is None for cluster in check.clusters_to_repair())
