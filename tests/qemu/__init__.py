"""A second implementation of the format, and images for comparisons of `qmeta` with it and with QEMU's tools.

The Python scripts in scripts/ are built on it. `image` is its one reader of qcow2 and `draft` its one writer. It shares
no code with the program under test.
"""
