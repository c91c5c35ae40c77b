"""Comparisons of `qmeta`'s output and changes with QEMU's tools and with a second implementation of the format."""

import json
import re
import shutil
import zlib
from itertools import zip_longest

from .check import printed_by_check, repair_of, uncounted_is_left
from .image import RAW_DATA, SECTOR, Header, Image, inflate
from .samples import written_pattern
from .tools import CHECK_STATUSES, CLEAN, qemu_check_counts, run, qmeta_output, qemu_img_json
from .trials import Problems

# The lines of members that only `qmeta check` prints.
OWN_MEMBERS = re.compile(r'    "(?:shared|past|false-flags|late-flags|dirty|corrupt)": (?:\d+|true),\n')

# The last line of `qmeta check` with findings.
TOTALS = re.compile(r"^leaked (\d+) missing (\d+) shared \d+ false (\d+) late (\d+)$", re.MULTILINE)

# The members of its JSON object that count entries of L2 tables.
ENTRY_COUNTS = ("allocated-clusters", "compressed-clusters", "fragmented-clusters")

# The members that `qemu-img check` counts otherwise in JSON, by the row of docs/DIFFERENCES.md that the image meets.
COUNTED_OTHERWISE = {
    "past the end": {"image-end-offset", "corruptions", "leaks"},
    "counters past the end": {"image-end-offset", "leaks"},
    "past the greatest counter": {"corruptions"},
    "uses of a block": {"corruptions"},
    "refcounts of a block named again": {"leaks"},
    "only copied": {"image-end-offset", "corruptions", "leaks", *ENTRY_COUNTS},
    "flags of a table named again": {"corruptions"},
    "compressed data outside": {"corruptions", *ENTRY_COUNTS},
    "zeros of the first cluster": {*ENTRY_COUNTS},
}


def length_and_name(name):
    """A name in the form of `qmeta info`, or `none`."""
    return "none" if name is None else f"{len(name.encode())} {name}"


def goes_on(before, extent):
    """Whether an extent continues the one before it."""
    ends = {**before, "start": before["start"] + before["length"], "length": extent["length"]}
    if "offset" in ends:
        ends["offset"] += before["length"]
    return ends == extent


def counted(printed):
    """Predicts the numbers of `qemu-img check` from the last line of `qmeta check`, without shared clusters."""
    last = TOTALS.search(printed)
    leaks, *corruptions = map(int, last.groups()) if last else [0]
    return {"leaks": leaks, "corruptions": sum(corruptions), "check-errors": 0}


def how_it_ended(printed):
    """The result of a repair: a fault, a consistent image, or one with findings left."""
    fault = re.search(r"fault \d+", printed)
    return fault[0] if fault else "consistent" if printed == "consistent\n" else "not all repaired"


class Comparison:
    """An image, and the disagreements of both sides on it."""

    def __init__(self, path, qmeta):
        self.path, self.qmeta = path, qmeta
        self.header = Image(path).header
        self.cluster_size = self.header.cluster_size
        self.problems, self.edits, self.differences, self.repair = Problems(), 0, [], ""
        self.same = self.problems.same

    def said(self, command, *words):
        """The output of a command of `qmeta` on the image."""
        return qmeta_output(self.qmeta, self.path, command, *words)

    # Reading commands

    def compare_info(self):
        """Compares `qmeta info` with the header's bytes on the places of tables, and with qemu-img on all else."""
        header, told = self.header, json.loads(qemu_img_json(self.path, "info"))
        specific = told["format-specific"]["data"]
        version = {"0.10": 2, "1.1": 3}[specific["compat"]]
        # qemu-img puts header extensions into version 2 too. qmeta reads none there: see docs/FORMAT.md.
        backing_format = told.get("backing-filename-format") if version > 2 else None
        lines = [
            f"version {version}",
            f"cluster-bits {told['cluster-size'].bit_length() - 1}",
            f"size {told['virtual-size']}",
            f"refcount-order {specific['refcount-bits'].bit_length() - 1}",
            f"l1 {header.l1_table_offset:#x} {header.l1_size}",
            f"refcount-table {header.refcount_table_offset:#x} {header.refcount_table_clusters}",
            f"backing {length_and_name(told.get('backing-filename'))}",
            f"format {length_and_name(backing_format)}",
            f"external {'yes' if 'data-file' in specific else 'no'}",
            f"data-file {length_and_name(specific.get('data-file'))}",
        ]
        found = self.said("info").splitlines()
        self.same("lines of info", len(found), len(lines))
        for line, expected in zip(found, lines):
            self.same("info", line, expected)

    def compare_mappings(self):
        """Compares the mappings of all guest clusters. One that a side doesn't list reads as the backing file."""
        extents = json.loads(qemu_img_json(self.path, "map"))
        expected = self.expected_mappings(extents)
        listed = self.listed_mappings()
        for offset in sorted(listed.keys() | expected.keys()):
            text = listed.get(offset)
            is_compressed = text is not None and text.startswith("compressed ")
            self.same(f"list {offset:#x}", "compressed" if is_compressed else text, expected.get(offset))
            if is_compressed:
                self.compare_compressed(offset, text)
        # `at` gets guest offsets at the ends of extents, in their middle and within a cluster
        for extent in extents[:: len(extents) // 20 + 1]:
            start, length = extent["start"], extent["length"]
            for offset in sorted({start, start + 1, start + length // 2, start + length - 1}):
                cluster_start = offset // self.cluster_size * self.cluster_size
                expected_text = listed.get(cluster_start, f"backing {cluster_start:#x}")
                self.same(f"at {offset:#x}", self.said("at", offset), expected_text + "\n")

    def listed_mappings(self):
        """The mappings that `qmeta list` prints, by guest offset."""
        listed = {}
        for line in self.said("list").splitlines():
            offset, _, text = line.partition(" ")
            if offset.startswith("0x"):
                listed[int(offset, 16)] = text
            else:
                self.same("list", line, "an offset and a mapping")
        return listed

    def expected_mappings(self, extents):
        """The mapping of each guest cluster that the image itself maps, by qemu-img map, in qmeta's words.

        An extent of the top layer has depth 0 and is present. At a hole of the file, qemu-img splits a data cluster,
        and reports a part of it as zeros too; it is data all the same. So the parts of a cluster must have one mapping.
        Other sources give the facts that qemu-img doesn't print: the refcount gives the copied flag, the data itself
        the place of compressed data (`compare_compressed`), and the entry the zeros that have the first cluster of an
        external data file.
        """
        image, expected = Image(self.path), {}
        for extent in extents:
            if extent["depth"] != 0 or not extent["present"]:
                continue
            start = extent["start"] // self.cluster_size * self.cluster_size
            for offset in range(start, extent["start"] + extent["length"], self.cluster_size):
                text = self.expected_mapping(image, extent, offset)
                self.same(f"parts of cluster {offset:#x}", text, expected.setdefault(offset, text))
        return expected

    def expected_mapping(self, image, extent, offset):
        """The mapping of the guest cluster at an offset, by its extent."""
        if offset == 0 and image.has_zeros_at_start:
            return "zero 0x0 copied"
        if "offset" not in extent:
            return "compressed" if extent["data"] else "zero"
        host_offset = extent["offset"] + offset - extent["start"]
        # An external data file has no refcounts: each cluster has one reference.
        is_copied = self.header.is_external or image.refcount(host_offset // self.cluster_size) == 1
        return f"{'data' if extent['data'] else 'zero'} {host_offset:#x}{' copied' if is_copied else ''}"

    def compare_compressed(self, offset, text):
        """Compares compressed data with the written pattern. It must end in the last sector of qmeta's range."""
        _, place, length = text.split()
        stored = Image(self.path).bytes_at(int(place, 16), int(length))
        try:
            found, unused = inflate(stored, self.cluster_size + 1)
        except zlib.error as error:
            found, unused = str(error).encode(), b""
        expected = written_pattern(self.header, offset // self.cluster_size)
        self.same(f"what is compressed at {offset:#x}", zlib.crc32(found), zlib.crc32(expected))
        self.same(f"sectors too many at {offset:#x}", len(unused) // SECTOR, 0)

    def compare_extents(self):
        """Compares `qmeta map` in JSON with qemu-img map, byte for byte."""
        expected = qemu_img_json(self.path, "map")
        extents = json.loads(expected)
        above = self.above_holes(extents)
        if above != extents:
            rows = ("{ " + json.dumps(extent)[1:-1] + "}" for extent in above)
            expected = "[" + ",\n".join(rows) + "]\n"
        self.same("map", self.said("map", "json"), expected)

    def above_holes(self, extents):
        """The extents by the image's own format.

        At a hole of the file with the data, qemu-img looks below the format, and reports that part of the data as
        zeros too. It prints no offset for zeros that keep the first cluster of an external data file.
        """
        image, above = Image(self.path), []
        for extent in extents:
            extent = {**extent, "zero": extent["zero"] and not extent["data"]}
            if extent["start"] == 0 and image.has_zeros_at_start:
                extent["offset"] = 0
            if above and goes_on(above[-1], extent):
                above[-1]["length"] += extent["length"]
            else:
                above.append(extent)
        return above

    # Edits and refcounts

    def compare_edits(self):
        """Edits clusters, corrects the refcounts, and compares the results with QEMU's tools."""
        self.compare_check("check of the new image")
        listed = self.listed_mappings()
        data = [offset for offset, text in listed.items() if re.fullmatch("data .* copied", text)]
        compressed = [offset for offset, text in listed.items() if text.startswith("compressed ")]
        for offset in data[-1:]:
            self.discard_and_restore(offset, listed[offset])
        for offset in compressed[-1:]:
            self.free("discard", offset, listed[offset])
        # version 2 has no zero clusters
        for offset in data[:1] if self.header.version > 2 else []:
            self.zero(offset, listed[offset])
        self.compare_info()
        self.compare_mappings()

    def discard_and_restore(self, offset, text):
        """Discards a data cluster, and maps it again. Then the image must be as before, byte for byte."""
        before = self.path.read_bytes()
        cluster = self.host_clusters(text).start
        self.free("discard", offset, text)
        self.same("at a discarded cluster", self.said("at", offset), f"backing {offset:#x}\n")
        self.compare_mappings()
        self.same("mapping again", self.edit("map", offset, cluster), f"gained {cluster}\n")
        self.step_refcounts("inc", [cluster])
        self.compare_check("check after mapping again")
        after = self.path.read_bytes()
        # a program that doesn't keep the autoclear feature of raw data up to date clears it when it changes the image
        had_raw_data, has_raw_data = (
            Header.unpack(stored).autoclear_features & RAW_DATA != 0 for stored in (before, after)
        )
        if had_raw_data:
            self.same("raw data after an edit", has_raw_data, False)
        else:
            self.same("the image is as before", after == before, True)

    def zero(self, offset, text):
        """Makes a data cluster read as zeros, first with its host cluster and then without it."""
        self.same("zeroing with a cluster", self.edit("keep", offset), "")
        self.same("at zeros with a cluster", self.said("at", offset), text.replace("data", "zero") + "\n")
        self.compare_check("check after zeroing with a cluster")
        self.compare_mappings()
        self.free("zero", offset, text)
        self.same("at zeros", self.said("at", offset), "zero\n")

    def edit(self, name, offset, *arguments):
        """Edits the guest cluster at an offset by `qmeta edit`, and returns the output."""
        self.edits += 1
        l1_index, l2_index = divmod(offset // self.cluster_size, self.header.table_entries)
        return self.said("edit", l1_index, ":".join(map(str, (name, l2_index, *arguments))))

    def free(self, name, offset, text):
        """Compares the output of an edit that drops a mapping, and its leaks, which `count` and a repair mend alike.

        An external data file has no refcounts, so the image leaks nothing then.
        """
        what = "zeroing" if name == "zero" else name
        freed = self.host_clusters(text)
        self.same(what, self.edit(name, offset), f"freed {freed.start} {len(freed)}\n")
        self.compare_check(f"check after {what}", 0 if self.header.is_external else len(freed))
        repaired = self.repaired_copy()
        self.step_refcounts("dec", freed)
        self.same("a repair mends a leak as counting does", repaired in (None, self.path.read_bytes()), True)
        self.compare_check(f"check after {what} and counting")

    def repaired_copy(self):
        """The bytes of a repaired copy of the image, or None if it has snapshots, which a repair must refuse."""
        copy, has_snapshots = self.path.with_suffix(".copy"), self.header.nb_snapshots > 0
        shutil.copyfile(self.path, copy)
        run([self.qmeta, "check", copy.name, "repair"], copy.parent, (1 if has_snapshots else 0,))
        return None if has_snapshots else copy.read_bytes()

    def host_clusters(self, text):
        """The host clusters of a mapping: one of data, or all that compressed data touches."""
        kind, start, *words = text.split()
        last = int(start, 16) + (int(words[0]) if kind == "compressed" else 1) - 1
        return range(int(start, 16) // self.cluster_size, last // self.cluster_size + 1)

    def step_refcounts(self, step, clusters):
        """Makes a step of the refcount of each host cluster, unless they lie in an external data file."""
        for cluster in clusters if not self.header.is_external else []:
            image = Image(self.path)
            before, (block, index) = image.refcount(cluster), image.refcount_place(cluster)
            self.same(f"{step} of cluster {cluster}", self.said("count", block, f"{step}:{index}"), f"ok {before}\n")
            after = before + 1 if step == "inc" else before - 1
            self.same(f"counter of cluster {cluster}", Image(self.path).refcount(cluster), after)

    # Checks and repairs

    def compare_check(self, what, leaks=0):
        """Compares what `qemu-img check` counts, that many leaks and nothing else, and all of `qmeta check`."""
        self.same(what, qemu_check_counts(self.path), {**CLEAN, "leaks": leaks})
        self.compare_findings(what)

    def compare_findings(self, what="check"):
        """Compares `qmeta check` with the definitions, line by line, and its numbers with those of `qemu-img check`."""
        printed, printed_object = self.said("check"), self.said("check", "json")
        expected = printed_by_check(self.path)
        self.differences = expected.differences
        for line, expected_line in zip_longest(printed.splitlines(), expected.text.splitlines()):
            self.same(f"{what}, by the definitions", line, expected_line)
        self.same(f"{what} in JSON, by the definitions", printed_object, expected.json)
        if not self.differences:
            self.same(f"{what}, by qemu-img", counted(printed), qemu_check_counts(self.path))
        if "refused" not in self.differences:
            self.compare_objects(what, printed_object.partition("status ")[0])

    def compare_objects(self, what, printed):
        """Compares the JSON object of `qmeta check` with qemu-img's: byte for byte, or members that both count alike.

        Skips members that only `qmeta` prints.
        """
        told = qemu_img_json(self.path, "check", CHECK_STATUSES)
        printed = OWN_MEMBERS.sub("", printed)
        if not self.differences:
            self.same(f"{what} in JSON, by qemu-img", printed, told)
            return
        apart = set().union(*(COUNTED_OTHERWISE[name] for name in self.differences))
        found, expected = json.loads(printed), json.loads(told)
        for name in sorted((found.keys() | expected.keys()) - apart):
            self.same(f"{name} of {what} in JSON, by qemu-img", found.get(name), expected.get(name))

    def compare_repair(self):
        """Repairs the image. Compares its bytes and the output with the definitions, and then both checks again.

        A refused repair must change no byte. Any other may only leave findings about clusters that no block counts.
        """
        differences = self.differences
        before = self.path.read_bytes()
        expected = repair_of(self.path, before)
        printed = self.said("check", "repair")
        after = self.path.read_bytes()
        if expected.fault:
            self.same("repair", printed, f"qmeta: fault {expected.fault}\nstatus 1\n")
            self.same("a refused repair changes no byte", after == before, True)
        else:
            mended, first = expected.bytes, expected.first
            self.same("the bytes after a repair", after.ljust(len(mended), b"\0")[first:] == mended[first:], True)
            self.same("repair", printed, printed_by_check(self.path).text)
            self.same("what is left is of clusters without a block", uncounted_is_left(self.path), True)
            self.compare_findings("check after a repair")
        self.repair = how_it_ended(printed)
        self.differences = differences
