"""Images of many options, which QEMU's tools make and fill. They are the same in each run."""

import random
from typing import NamedTuple

from .image import AUTOCLEAR_OFFSET, BACKING_FORMAT, FEATURES_LENGTH, Image
from .tools import add_bitmap, create_image, cut_fill, fill_image, take_snapshot

# The histories of guest clusters, as commands of qemu-io. Zeros have a host cluster if data was there or the image is
# preallocated, but those of `hole` have none.
HISTORIES = {
    "none": [],
    "data": ["write"],
    "part": ["write part"],
    "compressed": ["write -c"],
    "rewritten": ["write -c", "write part"],
    "zero": ["write -z"],
    "kept": ["write", "write -z"],
    "hole": ["write", "write -z -u"],
    "discarded": ["write", "discard"],
}
PLAIN = "none data part zero kept hole discarded"

# Guest data comes from files: this share of a cluster is random bytes, and the rest are zeros.
PATTERNS = (0.0, 0.3, 0.8)


# The options of an encrypted image. Its key is derived in 10 ms.
LUKS_OPTIONS = "encrypt.format=luks,encrypt.key-secret=key,encrypt.iter-time=10"


class Sample(NamedTuple):
    """An image to make: its options and size, the histories of its clusters, and further changes."""

    name: str
    options: str
    size: str
    histories: str = PLAIN + " compressed rewritten"
    has_snapshot: bool = False
    forgets_format: bool = False
    bitmaps: int = 0
    has_stale_bitmaps: bool = False
    is_cut: bool = False

    @property
    def is_external(self):
        """Whether guest data lies in an external data file."""
        return "data_file=" in self.options

    @property
    def is_for_all_commands(self):
        """Whether each command accepts its features, and QEMU's tools tell where its data lies."""
        return not self.is_cut and "zstd" not in self.options and not self.bitmaps and not self.is_encrypted

    @property
    def is_encrypted(self):
        """Whether LUKS encrypts its data."""
        return LUKS_OPTIONS in self.options

    @property
    def is_backed(self):
        """Whether it has a backing file."""
        return "backing_file" in self.options


SAMPLES = [
    # clusters of 512 bytes: an L2 table maps 32 KiB
    Sample("small-1", "cluster_size=512", "1M"),
    Sample("small-2", "cluster_size=512,compat=0.10", "8M"),
    Sample("small-3", "cluster_size=512,refcount_bits=1", "2999808"),
    Sample("small-4", "cluster_size=512,refcount_bits=64", "1G"),
    Sample("small-5", "cluster_size=512", "4608"),
    # 4 KiB: 2 MiB
    Sample("middle-1", "cluster_size=4k", "10M"),
    Sample("middle-2", "cluster_size=4k,compat=0.10", "33555968"),
    Sample("middle-3", "cluster_size=4k,refcount_bits=1", "64G"),
    Sample("middle-4", "cluster_size=4k,refcount_bits=64", "5000192"),
    # 64 KiB: 512 MiB
    Sample("usual-1", "", "64G"),
    Sample("usual-2", "compat=0.10", "64G"),
    Sample("usual-3", "refcount_bits=1", "10G"),
    Sample("usual-4", "refcount_bits=64", "1610613248"),
    Sample("empty", "", "3G", "none"),
    # 2 MiB: 512 GiB
    Sample("large-1", "cluster_size=2M", "64G"),
    Sample("large-2", "cluster_size=2M,compat=0.10", "20972032"),
    Sample("large-3", "cluster_size=2M,refcount_bits=1", "1G"),
    Sample("large-4", "cluster_size=2M,refcount_bits=64", "2T"),
    # all clusters have a host cluster from the start
    Sample("preallocated-1", "preallocation=metadata", "16M", PLAIN),
    Sample("preallocated-2", "preallocation=metadata,cluster_size=4k,compat=0.10", "3M", PLAIN),
    Sample("preallocated-3", "preallocation=metadata,cluster_size=512,refcount_bits=1", "300K", PLAIN),
    Sample("preallocated-4", "preallocation=metadata,cluster_size=2M", "40M", PLAIN),
    # backing files
    Sample("backed-1", "backing_file=base.raw,backing_fmt=raw", "64M"),
    Sample("backed-2", "backing_file=base.qcow2,backing_fmt=qcow2,cluster_size=4k", "1G"),
    Sample("backed-3", "backing_file=bäse.raw,backing_fmt=raw,cluster_size=512", "3M"),
    Sample("backed-4", "backing_file=base.raw,backing_fmt=raw", "2G", forgets_format=True),
    Sample("backed-5", "backing_file=base.qcow2,backing_fmt=qcow2", "2M", forgets_format=True),
    Sample("backed-6", "backing_file=base.raw,backing_fmt=raw,compat=0.10", "64M"),
    Sample("backed-7", "backing_file=base.qcow2,backing_fmt=qcow2,compat=0.10", "64M", forgets_format=True),
    # an external data file, which has no compressed data
    Sample("external-1", "data_file=external-1.data", "1G", PLAIN),
    Sample("external-2", "data_file=external-2.data,data_file_raw=on", "10M", PLAIN),
    Sample("external-3", "data_file=external-3.data,cluster_size=4k,refcount_bits=1", "5M", PLAIN),
    Sample("external-4", "data_file=external-4.data,preallocation=metadata,cluster_size=512", "1M", PLAIN),
    # clusters with two references
    Sample("snapshot-1", "", "64G", has_snapshot=True),
    Sample("snapshot-2", "cluster_size=512,refcount_bits=64", "3M", has_snapshot=True),
    Sample("snapshot-3", "cluster_size=4k,compat=0.10", "100M", has_snapshot=True),
    # another compression
    Sample("zstd-1", "compression_type=zstd", "64G"),
    Sample("zstd-2", "compression_type=zstd,cluster_size=4k,refcount_bits=1", "10M"),
    Sample("zstd-3", "compression_type=zstd,cluster_size=2M", "1G"),
    # LUKS encryption, in version 2 with its place in an extension that isn't read there
    Sample("luks-1", LUKS_OPTIONS, "64G", PLAIN),
    Sample("luks-2", f"{LUKS_OPTIONS},cluster_size=512,refcount_bits=1", "3M", PLAIN),
    Sample("luks-3", f"{LUKS_OPTIONS},cluster_size=2M,compression_type=zstd", "1G", PLAIN),
    Sample("luks-4", f"{LUKS_OPTIONS},compat=0.10", "64M", PLAIN),
    # persistent bitmaps, which agree with the disk or are stale
    Sample("bitmaps-1", "", "64M", bitmaps=2),
    Sample("bitmaps-2", "", "64G", bitmaps=1, has_stale_bitmaps=True),
    Sample("bitmaps-3", "cluster_size=4k,refcount_bits=1", "10M", bitmaps=3, has_stale_bitmaps=True),
    # left dirty: qemu-io was killed before it wrote refcounts
    Sample("dirty-1", "lazy_refcounts=on", "64G", is_cut=True),
    Sample("dirty-2", "lazy_refcounts=on,cluster_size=512", "3M", is_cut=True),
    Sample("dirty-3", "lazy_refcounts=on,cluster_size=4k,refcount_bits=1,compression_type=zstd", "1G", is_cut=True),
]


def make_backing_files(folder):
    """Makes the backing files of the samples."""
    for name in ("base.raw", "bäse.raw"):
        create_image(folder / name, "2M", image_format="raw")
        fill_image(folder / name, ["write -P 7 64k 1M"], image_format="raw")
    create_image(folder / "base.qcow2", "32M", "cluster_size=512")
    fill_image(folder / "base.qcow2", ["write -P 7 0 300k", "write -z 1M 70k", "write -P 8 31M 1M"])


def make_sample(sample, folder):
    """Makes a sample, gives some clusters histories, compressed data first, and returns its path."""
    path = folder / f"{sample.name}.qcow2"
    create_image(path, sample.size, sample.options)
    header = Image(path).header
    for number in range(sample.bitmaps):
        add_bitmap(path, f"bitmap-{number}")
    for number in range(len(PATTERNS)):
        (folder / f"pattern-{number}").write_bytes(pattern(number, header.cluster_size))
    clusters = touched_clusters(header)
    chance = random.Random(sample.name)
    histories = [(cluster, chance.choice(sample.histories.split())) for cluster in clusters]
    chance.shuffle(histories)
    steps = [(word, cluster) for cluster, history in histories for word in HISTORIES[history]]
    # qemu-io 7.2 fails to write some compressed data after it freed the cluster of other such data.
    steps.sort(key=lambda step: step[0] != "write -c")
    fill_image(path, [command(header, *step) for step in steps])
    if sample.has_snapshot:
        take_snapshot(path, "first")
        fill_image(path, [command(header, "write", cluster) for cluster in clusters[::3]])
    if sample.forgets_format:
        forget_format(path)
    if sample.has_stale_bitmaps:
        clear_autoclear(path)
    if sample.is_cut:
        cut_fill(path, [command(header, "write", cluster) for cluster in clusters[::3]])
    return path


def pattern(number, length):
    """The bytes of a pattern, one for every third guest cluster."""
    rough = int(PATTERNS[number] * length)
    return random.Random(f"pattern-{number}").randbytes(rough) + bytes(length - rough)


def written_pattern(header, cluster):
    """The bytes of a guest cluster after a write of its pattern, zeros past the disk's end."""
    written = pattern(cluster % len(PATTERNS), header.cluster_size)
    return written[: header.size - cluster * header.cluster_size].ljust(header.cluster_size, b"\0")


def touched_clusters(header):
    """Runs of guest clusters at the start, at the end of the first L2 table, a third into the disk and at its end."""
    count = header.guest_clusters
    starts = (0, header.table_entries - 9, count // 3, count - 20)
    return sorted({cluster for start in starts for cluster in range(max(start, 0), min(start + 20, count))})


def command(header, word, cluster):
    """The command of qemu-io for a step in a guest cluster's history. The disk may end within the cluster."""
    start = cluster * header.cluster_size
    length = min(header.cluster_size, header.size - start)
    if word == "write part":
        return f"write -P 5 {start + length // 4} {length // 2}"
    source = f" -s pattern-{cluster % len(PATTERNS)}" if word in ("write", "write -c") else ""
    return f"{word}{source} {start} {length}"


def clear_autoclear(path):
    """Clears all autoclear features, as a program does that doesn't know them and writes to the image."""
    with open(path, "r+b") as file:
        file.seek(AUTOCLEAR_OFFSET)
        file.write(bytes(FEATURES_LENGTH))


def forget_format(path):
    """Gives the header extension with the backing file's format an unknown type.

    qemu-img no longer makes an image with a backing file and without its format, but such images exist.
    """
    with open(path, "r+b") as file:
        file.seek(file.read(512).index(BACKING_FORMAT))
        file.write(b"none")
