"""The numbers of the faults that tests expect of `qmeta`. `qmeta explain` explains each."""

ENTRY_RESERVED = 18
ENTRY_UNALIGNED = 19
TABLE_PLACE = 21
NOT_PLACED = 23
VERSION_NEEDED = 27
REFCOUNT_RANGE = 30
BAD_EDIT = 32
UNCOUNTED = 37
OVERLAP = 38
SHARED_TABLE = 40
L1_SHORT = 41
