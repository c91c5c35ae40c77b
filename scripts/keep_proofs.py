#!/usr/bin/env python3
"""Lets `rt lib` reuse the libraries that `rt ci` has just proved in this folder, so that it doesn't prove them again.

`rt ci` leaves each library in `out/rlib` of its crate, without the stamp by which other commands recognize it. The
script writes that stamp, by the toolchain's own code, if MARK is newer than all sources of the library and older than
the library. If it isn't, or the toolchain has other code, it writes nothing more, and `rt lib` proves the rest anew.

Usage: scripts/keep_proofs.py CRATE MARK. MARK is a file that was made just before `rt ci` began. Prints nothing.
"""

import os
import shutil
import sys
from pathlib import Path

ROOT = Path(__file__).resolve().parent.parent


def written(path):
    return Path(path).stat().st_mtime


def newest(folder):
    """The time of the last write to a source of a crate."""
    parts = ("src", "specs", "proofs")
    return max((written(file) for part in parts for file in Path(folder, part).rglob("*") if file.is_file()), default=0.0)


def keep(name, mark):
    sys.path.insert(0, str(Path(os.path.realpath(shutil.which("rt"))).parent))
    import rtlib

    begun = written(mark)
    if max(written(ROOT / "crates.txt"), written(f"{rtlib.KIT}/WHAT")) >= begun:
        return
    for crate in rtlib.crates_below(str(ROOT / "crates" / name)):
        if not crate.folder.startswith(str(ROOT)) or not os.path.isdir(crate.rlib):
            continue
        if newest(crate.folder) >= begun or written(crate.rlib) <= begun:
            return
        note = Path(crate.folder, "out/rlib/stamp")
        if not note.exists():
            note.write_text(crate.stamp())


try:
    keep(*sys.argv[1:])
except (Exception, SystemExit):  # no mark, or another toolchain: nothing is kept
    pass
