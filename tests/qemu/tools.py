"""Runs QEMU's tools and `qmeta`, and has the arguments and folders that scripts share."""

import argparse
import json
import os
import shutil
import signal
import subprocess
import sys
import tempfile
from contextlib import contextmanager
from pathlib import Path

ROOT = Path(__file__).resolve().parents[2]
QMETA = ROOT / "crates/qmeta/out/qmeta"

# The statuses of `qemu-img check`: no error, corruptions, leaks.
CHECK_STATUSES = (0, 2, 3)

# The members of its JSON object that count findings, all 0 in a consistent image.
CLEAN = {"leaks": 0, "corruptions": 0, "check-errors": 0}

# The key of encrypted images, for QEMU's tools.
KEY = ("--object", "secret,id=key,data=secret")

# The place of the encryption method in an image's header, and LUKS there.
METHOD_OFFSET, LUKS_METHOD = 32, b"\0\0\0\2"

# The most characters shown of a failed command, and of the end of its output.
MOST_SHOWN = 400


# Commands


def argument_parser(description):
    """A parser of a script's arguments, of which the first is the built program."""
    parser = argparse.ArgumentParser(description=description)
    parser.add_argument("qmeta", nargs="?", type=Path, default=QMETA, help="the built program")
    return parser


def add_jobs(parser):
    """Adds the option for the number of images that are tried at once."""
    parser.add_argument("--jobs", type=int, default=os.cpu_count(), help="how many images are tried at once")


def missing_programs(*programs):
    """The programs that are missing."""
    return [str(program) for program in programs if shutil.which(program) is None]


def stop_without(*programs):
    """Ends the script with status 2 if a program is missing, and names the first one."""
    for program in missing_programs(*programs):
        print(f"{program} is missing", file=sys.stderr)
        sys.exit(2)


def temporary_folder(in_memory=False):
    """A temporary folder, in memory if asked for and possible: for images that are written again and again."""
    memory = Path("/dev/shm")
    return tempfile.TemporaryDirectory(dir=memory if in_memory and os.access(memory, os.W_OK) else None)


@contextmanager
def copy_sparse(path):
    """A sparse copy of an image, removed at the end."""
    copy = path.with_suffix(".copy")
    subprocess.run(["cp", "--sparse=always", path, copy], check=True)
    try:
        yield copy
    finally:
        copy.unlink()


def remove_image(path):
    """Removes an image, and all files of its name with another suffix."""
    for file in path.parent.glob("*"):
        if file.stem == path.stem:
            file.unlink()


# Programs


class ToolFailed(Exception):
    """A program ended with an unexpected status, or made a system call that the tests don't understand."""


def run(words, folder, statuses=(0,), **options):
    """Runs a program in a folder, and returns its status and output.

    The status must be one of `statuses`, or any if that is empty. The options are those of `subprocess.run`.
    """
    ended = subprocess.run(words, cwd=folder, capture_output=True, encoding="utf-8", **options)
    if statuses and ended.returncode not in statuses:
        command, printed = " ".join(map(str, words)), ended.stdout + ended.stderr
        raise ToolFailed(f"{command[:MOST_SHOWN]}: status {ended.returncode}: {printed[-MOST_SHOWN:]}")
    return ended


def qmeta_output(qmeta, path, command, *words):
    """The output of a command of `qmeta` on an image, with standard error, and its status if that isn't 0."""
    ended = run([qmeta, command, path.name, *map(str, words)], path.parent, ())
    status = f"status {ended.returncode}\n" if ended.returncode else ""
    return ended.stdout + ended.stderr + status


def create_image(path, size, options="", image_format="qcow2"):
    """Makes an image by qemu-img. An option may name the key `key`."""
    words = ["-o", options] if options else []
    run(["qemu-img", "create", "-q", *KEY, "-f", image_format, *words, path.name, str(size)], path.parent)


def is_encrypted(path):
    """Whether LUKS encrypts an image."""
    with open(path, "rb") as file:
        file.seek(METHOD_OFFSET)
        return file.read(len(LUKS_METHOD)) == LUKS_METHOD


def named_with_key(path):
    """The words that name an encrypted image for QEMU's tools."""
    return f"driver=qcow2,encrypt.key-secret=key,file.driver=file,file.filename={path.name}"


def opened(path, image_format="qcow2"):
    """The words by which QEMU's tools open an image."""
    if image_format == "qcow2" and is_encrypted(path):
        return [*KEY, "--image-opts", named_with_key(path)]
    return ["-f", image_format, path.name]


def fill_image(path, commands, image_format="qcow2"):
    """Runs commands of qemu-io on an image, without syncs to the device."""
    text = "".join(f"{command}\n" for command in commands)
    run(["qemu-io", "-t", "unsafe", *opened(path, image_format)], path.parent, input=text)


def cut_fill(path, commands):
    """Runs commands of qemu-io on an image, and kills it before it closes the image."""
    text = "".join(f"{command}\n" for command in [*commands, "flush", f"sigraise {signal.SIGKILL:d}"])
    run(["qemu-io", *opened(path)], path.parent, (-signal.SIGKILL,), input=text)


def add_bitmap(path, name):
    """Adds a persistent bitmap to an image, which records the writes of QEMU's tools from then on."""
    run(["qemu-img", "bitmap", "--add", "-f", "qcow2", path.name, name], path.parent)


def take_snapshot(path, name):
    """Takes a snapshot of an image's disk."""
    run(["qemu-img", "snapshot", "-c", name, path.name], path.parent)


def qemu_img_json(path, command, statuses=(0,)):
    """The JSON output of a command of qemu-img on an image, with the name of its file."""
    printed = run(["qemu-img", command, "--output=json", *opened(path)], path.parent, statuses).stdout
    return printed.replace(named_with_key(path), path.name)


def qemu_check_counts(path):
    """The numbers of `qemu-img check`: leaks, corruptions, and errors of the check itself."""
    members = json.loads(qemu_img_json(path, "check", CHECK_STATUSES))
    return {name: members.get(name, 0) for name in CLEAN}
