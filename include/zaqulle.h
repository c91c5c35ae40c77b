/*
 * zaqulle.h: reads, edits and checks qcow2 metadata in bytes that the program has read or mapped itself.
 *
 * Link libzaqulle.a, which scripts/build-c-library builds, and no other library of this project. No function reads or
 * writes a file, and none prints.
 *
 * Rules for all functions:
 *
 * - A function returns 0, or the number of the fault that it refuses with (enum zq_fault). After a fault, bytes that
 *   it edits are unchanged, and so are its results, except as zq_l2_check, zq_l2_edit, zq_image_extents and
 *   zq_image_check say.
 * - No function reads or writes outside what its arguments point to, whatever bytes and numbers you pass. This is
 *   proved, and so is each sentence here on what a function returns.
 * - A pointer to bytes must point to as many as the length says, and a pointer to a list to as many elements as the
 *   capacity or count says. It may be NULL if that number is 0. Every other pointer must point to an object of its
 *   type. Places for results may be uninitialized. Neither these nor bytes that a function edits may overlap other
 *   arguments.
 * - No function keeps a pointer after it returns, and there is no global state. So all are thread-safe if nobody
 *   changes what another call reads. Don't call them from a signal handler, nor in the forked child of a process with
 *   threads.
 * - Offsets and lengths are in bytes. Tables hold big-endian numbers of eight bytes; pass an entry as a number of your
 *   machine.
 *
 * Only zq_header_read, zq_l2_edit, zq_refcounts_settle and the functions of a whole image, zq_image_.., take memory.
 * They take it by malloc and realloc, and free it before they return. If you replace these three functions, they must
 * belong to one allocator, and align a block to each power of two up to 16 that divides its size.
 */
#ifndef ZAQULLE_H
#define ZAQULLE_H

#include <stddef.h>
#include <stdint.h>

#ifdef __cplusplus
extern "C" {
#endif

/*
 * The faults: each has a name, a number, and a sentence that says what must hold. The program qmeta prints the same
 * numbers, and no number is ever used for another fault. No function here returns a fault that its comment doesn't
 * name.
 */
#define ZQ_FAULTS(F) \
    F(ZQ_NOT_QCOW2, 1, "not a qcow2 image: the magic must be 0x514649fb")                                         \
    F(ZQ_VERSION, 2, "the version must be 2 or 3")                                                                \
    F(ZQ_CLUSTER_SIZE, 3, "cluster_bits must be from 9 to 21")                                                    \
    F(ZQ_HEADER_SHORT, 4, "header_length must be at least 104")                                                   \
    F(ZQ_HEADER_BIG, 5, "the header must end within the first cluster")                                           \
    F(ZQ_L1_UNALIGNED, 6, "l1_table_offset must be a multiple of the cluster size")                               \
    F(ZQ_REFTABLE_UNALIGNED, 7, "refcount_table_offset must be a multiple of the cluster size")                   \
    F(ZQ_REFCOUNT_WIDTH, 8, "refcount_order must be at most 6")                                                   \
    F(ZQ_BACKING_NAME_LONG, 9, "backing_file_size must be at most 1023")                                          \
    F(ZQ_BACKING_NAME_PLACE, 10, "the backing file name must end within the first cluster")                       \
    F(ZQ_BACKING_NAME_TEXT, 11, "the backing file name must be UTF-8")                                            \
    F(ZQ_EXTENSIONS_EXCEED, 12, "the header extensions must end within the first cluster")                        \
    F(ZQ_EXTENSION_TEXT, 13, "a backing format or data file name in an extension must be UTF-8")                  \
    F(ZQ_FEATURE_NAME_CUT, 14, "a feature name entry must have at least its type and its bit")                    \
    F(ZQ_FORMAT_CONFLICT, 15, "all backing format extensions must hold the same name")                            \
    F(ZQ_DATA_FILE_CONFLICT, 16, "all external data file extensions must hold the same name")                     \
    F(ZQ_INCOMPATIBLE, 17, "all incompatible features but an external data file (bit 2) must be clear")           \
    F(ZQ_ENTRY_RESERVED, 18, "the reserved bits of a table entry must be 0")                                      \
    F(ZQ_ENTRY_UNALIGNED, 19, "the offset in a table entry must be a multiple of the cluster size")               \
    F(ZQ_TABLE_TOO_BIG, 20, "the table must have at most as many entries as its kind allows")                     \
    F(ZQ_TABLE_PLACE, 21, "a table or block must end at or below 2^56")                                           \
    F(ZQ_NO_OFFSET, 22, "a table or block must have a cluster to be written")                                     \
    F(ZQ_NOT_PLACED, 23, "a table or block must have a cluster to be referred to")                                \
    F(ZQ_HEADER_TOO_LONG, 24, "the header with its names must fit the first cluster")                             \
    F(ZQ_NAME_TOO_LONG, 25, "a backing file name must have at most 1023 bytes")                                   \
    F(ZQ_FIELD_CHANGED, 26, "an image that is in use must keep what its header says")                             \
    F(ZQ_VERSION_NEEDED, 27, "the image must have a later version for this")                                      \
    F(ZQ_CANNOT_GROW, 28, "a grown table must have at most as many entries as its kind allows")                   \
    F(ZQ_TOO_MANY, 29, "a count of entries or clusters must fit the 32 bits of its header field")                 \
    F(ZQ_COUNTER_RANGE, 30, "a refcount must stay from 0 to the largest value of its width")                      \
    F(ZQ_WRONG_LENGTH, 31, "the buffer must have the length of the structure in it")                              \
    F(ZQ_BAD_EDIT, 32, "each edit must name an entry of the table and a cluster that it can hold")                \
    F(ZQ_BAD_STEP, 33, "each step must name a counter of the block")                                              \
    F(ZQ_STORAGE, 34, "the storage must answer each call, one failed")                                            \
    F(ZQ_NO_MEMORY, 35, "memory must be left for the call, none was")                                             \
    F(ZQ_EXTERNAL_DATA, 36, "refcounts of data clusters must stand in the image, it has an external data file")   \
    F(ZQ_UNCOUNTED, 37, "all that refers to clusters must be read")                                               \
    F(ZQ_OVERLAP, 38, "the uses of a cluster must not exclude each other, nobody knows which of them to believe") \
    F(ZQ_IN_USE, 39, "an image that is written must be used by nobody else, it is in use")                        \
    F(ZQ_SHARED, 40, "an L2 table that is edited must have no other reference")                                   \
    F(ZQ_L1_SHORT, 41, "the L1 table must have an entry for each part of the disk, it has too few")               \
    F(ZQ_MARKED, 42, "an image that is changed must not be marked dirty or corrupt, it must be repaired first")

enum zq_fault {
    ZQ_OK = 0,
#define ZQ_FAULT_NUMBER(name, number, text) name = number,
    ZQ_FAULTS(ZQ_FAULT_NUMBER)
#undef ZQ_FAULT_NUMBER
};

/* Returns the sentence of a fault. */
static inline const char *zq_fault_text(uint32_t fault) {
    switch (fault) {
#define ZQ_FAULT_CASE(name, number, text) case number: return text;
        ZQ_FAULTS(ZQ_FAULT_CASE)
#undef ZQ_FAULT_CASE
        case ZQ_OK: return "no fault";
        default: return "no fault has this number";
    }
}

/* The place of a name in the bytes of the first cluster. offset is 0 if there is no name. Names are UTF-8, have no
   terminating zero byte, and may contain zero bytes. */
typedef struct zq_name {
    uint32_t offset;
    uint32_t length;
} zq_name;

/* The incompatible features of an image, which a program must know to read it. An image has none of these or the sum
   of several. */
enum zq_feature {
    ZQ_DIRTY = 1,              /* refcounts may be wrong: a program stopped before it had written all of them */
    ZQ_CORRUPT = 2,            /* any structure may be wrong: a program has found one that is */
    ZQ_EXTERNAL_DATA_FILE = 4, /* guest data lies in an external data file */
    ZQ_ZSTD = 8                /* compressed data is compressed by zstd, and else by zlib */
};

/* The fields of a header. In version 2 refcount_order is 4, all features are 0, and only the backing file may have
   a name. */
typedef struct zq_header {
    uint32_t version;               /* 2 or 3 */
    uint32_t cluster_bits;          /* a cluster has 1 << cluster_bits bytes; from 9 to 21 */
    uint32_t refcount_order;        /* a refcount has 1 << refcount_order bits; from 0 to 6 */
    uint32_t crypt_method;          /* 0 for none */
    uint64_t size;                  /* size of the guest's disk */
    uint64_t l1_offset;             /* host offset of the L1 table; a multiple of the cluster size */
    uint64_t reftable_offset;       /* host offset of the refcount table; a multiple of the cluster size */
    uint32_t l1_entries;            /* number of entries in the L1 table */
    uint32_t reftable_clusters;     /* number of clusters in the refcount table */
    uint64_t incompatible_features; /* the sum of its enum zq_feature */
    uint64_t compatible_features;
    uint64_t autoclear_features;
    uint64_t snapshots_offset;      /* host offset of the snapshot table */
    uint32_t snapshots;             /* number of snapshots */
    zq_name backing_name;
    zq_name backing_format;
    zq_name data_file;              /* name of the external data file */
} zq_header;

/* The content of a guest cluster or of an extent. */
enum zq_kind {
    ZQ_BACKING = 0,        /* data of the backing file, or zeros if there is none */
    ZQ_DATA = 1,           /* data in the data file, which is the image or its external data file */
    ZQ_ZERO = 2,           /* zeros without a cluster */
    ZQ_ZERO_ALLOCATED = 3, /* zeros with an allocated cluster of the data file */
    ZQ_COMPRESSED = 4      /* compressed data in the image */
};

typedef struct zq_mapping {
    uint32_t kind;   /* an enum zq_kind */
    uint32_t copied; /* the copied flag: 1 if the entry says that its cluster's refcount is exactly one, else 0 */
    uint64_t offset; /* offset of the cluster or compressed data in the file that kind names; 0 for ZQ_ZERO */
    uint64_t length; /* length there: the cluster size; for ZQ_COMPRESSED an upper bound; 0 for ZQ_ZERO */
} zq_mapping;

/*
 * Reads the cluster size, 512 bytes to 2 MiB, from the first 104 bytes of an image. More bytes may follow.
 * zq_header_read needs that many bytes: the first cluster.
 *
 * Faults, in this order: ZQ_WRONG_LENGTH (31) for fewer than 104 bytes, ZQ_NOT_QCOW2 (1), ZQ_VERSION (2),
 * ZQ_CLUSTER_SIZE (3).
 */
uint32_t zq_header_bytes(const uint8_t *bytes, size_t length, size_t *cluster_size);

/*
 * Decodes the header of an image from the bytes of its first cluster. More bytes may follow. If the image is shorter,
 * append zeros. An accepted header has all properties in the comments of zq_header, and its names end within the
 * cluster.
 *
 * Faults: those of zq_header_bytes; then ZQ_WRONG_LENGTH (31) for fewer bytes than the cluster has; then one of
 * ZQ_HEADER_SHORT (4) to ZQ_INCOMPATIBLE (17), by the first condition of the format that the header breaks;
 * ZQ_NO_MEMORY (35).
 */
uint32_t zq_header_read(const uint8_t *bytes, size_t length, zq_header *header);

/*
 * The next four functions take the header from zq_header_read, and use only its cluster_bits and
 * incompatible_features. They refuse values that only a made-up header has: ZQ_CLUSTER_SIZE (3), ZQ_INCOMPATIBLE (17).
 */

/*
 * Decodes an L1 entry. Sets *l2_offset to the host offset of its L2 table, which has one cluster, or to 0 if there is
 * none. Sets *copied to the copied flag: 1 if the entry says that the table's refcount is exactly one, else 0.
 *
 * Faults: ZQ_CLUSTER_SIZE (3), ZQ_INCOMPATIBLE (17), ZQ_ENTRY_RESERVED (18), ZQ_ENTRY_UNALIGNED (19).
 */
uint32_t zq_l1_entry(uint64_t entry, const zq_header *header, uint64_t *l2_offset, uint32_t *copied);

/*
 * Decodes the L2 entry of a guest offset's cluster. The mapping is that of the whole cluster. For ZQ_DATA the byte at
 * guest_offset is at mapping->offset + guest_offset % (1 << cluster_bits).
 *
 * Faults: ZQ_CLUSTER_SIZE (3), ZQ_INCOMPATIBLE (17), ZQ_ENTRY_RESERVED (18), ZQ_ENTRY_UNALIGNED (19).
 */
uint32_t zq_l2_entry(uint64_t entry, const zq_header *header, uint64_t guest_offset, zq_mapping *mapping);

/*
 * Checks that all entries in the bytes of an L2 table, or of a part of one, are valid.
 *
 * Faults, in this order: ZQ_CLUSTER_SIZE (3); ZQ_INCOMPATIBLE (17); ZQ_WRONG_LENGTH (31) if the length isn't a
 * multiple of 8; ZQ_ENTRY_RESERVED (18) or ZQ_ENTRY_UNALIGNED (19) of the first invalid entry. Only 18 and 19 set
 * *index: to that entry's index, 0 for the first entry.
 */
uint32_t zq_l2_check(const uint8_t *bytes, size_t length, const zq_header *header, size_t *index);

/* A part of the guest's disk with content of one kind. */
typedef struct zq_extent {
    uint32_t kind;         /* an enum zq_kind */
    uint32_t reserved;     /* always 0 */
    uint64_t guest_offset; /* guest offset of its first byte */
    uint64_t length;       /* its length on the guest's disk; never 0 */
    uint64_t offset;       /* offset of its first byte in the file that kind names; 0 for ZQ_ZERO. For ZQ_COMPRESSED
                              see each function */
} zq_extent;

/*
 * Joins the entries in the bytes of an L2 table, or of a part of one, into extents. The first entry is that of the
 * guest cluster at first_guest_offset, each next one that of the next cluster. Writes the extents in order, all or as
 * many as capacity allows, and sets *count to their number. Elements after them are unchanged. extents may be NULL if
 * capacity is 0. length / 8 elements are always enough.
 *
 * An extent is as long as possible. ZQ_DATA and ZQ_ZERO_ALLOCATED continue in the next cluster of the data file,
 * whatever the copied flags: the byte at guest_offset + n is at offset + n. ZQ_BACKING, ZQ_ZERO and ZQ_COMPRESSED
 * continue with the same kind. Compressed clusters are compressed one by one: offset is that of the first one's data,
 * and zq_l2_entry gives those of the others. Extents consist of whole clusters: guest_offset and length are multiples
 * of the cluster size.
 *
 * If capacity was too small, go on with the last extent's guest_offset + length as first_guest_offset, and with the
 * bytes after the entries of all extents: eight for each cluster. These sums stay below 2^64. A call tests all entries
 * that it is passed, so ask for many extents at once, or pass few entries.
 *
 * Faults, in this order: ZQ_CLUSTER_SIZE (3); ZQ_INCOMPATIBLE (17); ZQ_WRONG_LENGTH (31) if length isn't a multiple of
 * 8 or exceeds a cluster, if first_guest_offset isn't a multiple of the cluster size, or if a guest cluster would end
 * at or past 2^64; ZQ_ENTRY_RESERVED (18) or ZQ_ENTRY_UNALIGNED (19) of the first invalid entry in all the bytes,
 * whose index zq_l2_check gives.
 */
uint32_t zq_l2_extents(const uint8_t *bytes, size_t length, const zq_header *header, uint64_t first_guest_offset,
                       zq_extent *extents, size_t capacity, size_t *count);

/*
 * Reads count refcounts from index first on, from the bytes of a whole refcount block. counters may be NULL if count
 * is 0.
 *
 * A refcount has 1 << refcount_order bits, so a block of 1 << cluster_bits bytes has e = 1 << (cluster_bits + 3 -
 * refcount_order) of them. Refcount i of the block with index b in the refcount table is that of host cluster b * e +
 * i.
 *
 * Faults, in this order: ZQ_REFCOUNT_WIDTH (8) for an order past 6; ZQ_WRONG_LENGTH (31) if length is no cluster size,
 * a power of two from 512 bytes to 2 MiB; ZQ_BAD_STEP (33) if first + count exceeds the number of refcounts in the
 * block.
 */
uint32_t zq_refcounts_read(const uint8_t *bytes, size_t length, uint32_t refcount_order, size_t first,
                           uint64_t *counters, size_t count);

/* Consecutive host clusters. A cluster's number is its host offset divided by the cluster size. */
typedef struct zq_clusters {
    uint64_t first;
    uint64_t count; /* may be 0 */
} zq_clusters;

/*
 * Updates the refcounts in the bytes of a whole refcount block after edits of an L2 table, in place, all or none. Adds
 * one to a cluster's refcount for each time that gained names it, and subtracts one for each element of freed that
 * contains it. Skips clusters that other blocks count: pass the same lists with each block that counts one of their
 * clusters. block_index is the block's index in the refcount table; zq_refcounts_read says which clusters it counts.
 * Either list may be NULL if it is empty. Takes memory for a copy of the refcounts and of both lists.
 *
 * The clusters of an external data file (incompatible_features is 4) have no refcounts: don't pass them.
 *
 * Faults, in this order: ZQ_REFCOUNT_WIDTH (8) and ZQ_WRONG_LENGTH (31), as in zq_refcounts_read; ZQ_COUNTER_RANGE
 * (30) if a refcount plus its gains exceeds the largest value of its width, or is less than its losses; ZQ_NO_MEMORY
 * (35).
 */
uint32_t zq_refcounts_settle(uint8_t *bytes, size_t length, uint32_t refcount_order, uint64_t block_index,
                             const zq_clusters *freed, size_t freed_count, const uint64_t *gained, size_t gained_count);

/* The content that an edit gives a guest cluster. */
enum zq_edit_kind {
    ZQ_EDIT_MAP = 1,       /* data in a cluster of the data file */
    ZQ_EDIT_ZERO = 2,      /* zeros */
    ZQ_EDIT_ZERO_KEEP = 3, /* zeros; an entry with a cluster of the data file keeps it */
    ZQ_EDIT_DISCARD = 4    /* data of the backing file, or zeros if there is none */
};

typedef struct zq_edit {
    uint32_t kind;        /* an enum zq_edit_kind */
    uint32_t reserved;    /* ignored; set it to 0 */
    uint64_t index;       /* index of the guest cluster's entry in the table; 0 is the first */
    uint64_t host_offset; /* for ZQ_EDIT_MAP the cluster's offset, a multiple of the cluster size; else ignored */
} zq_edit;

/*
 * Makes edits in the bytes of a whole L2 table, one after another, in place, all or none. edits may be NULL if
 * edit_count is 0. Takes the header from zq_header_read, and uses only its version, cluster_bits and
 * incompatible_features. Takes memory for the table, the edits and both lists.
 *
 * Writes the ranges of clusters that lost a reference each to freed, and the clusters that gained one to gained, both
 * in the order of the edits. Sets *freed_count and *gained_count to their numbers. Elements after them are unchanged.
 * Neither list gets more than edit_count elements, and each may be NULL if its capacity is 0. Pass both to
 * zq_refcounts_settle, with each refcount block that counts one of these clusters. With an external data file, only
 * the ranges of compressed data are clusters of the image.
 *
 * ZQ_EDIT_MAP sets the copied flag, so pass a cluster without another reference. This isn't checked, nor is the
 * table's own refcount: if its L1 entry lacks the copied flag, edit a copy. If the entry already refers to that
 * cluster alone, also by compressed data in it, no reference is freed or gained. ZQ_EDIT_ZERO_KEEP still frees
 * compressed data.
 *
 * A crash only leaks clusters if you write the raised refcounts first, then the table, then the lowered refcounts,
 * with an fsync after each.
 *
 * Faults, in this order: ZQ_VERSION_NEEDED (27) for zeros in version 2; ZQ_CLUSTER_SIZE (3); ZQ_INCOMPATIBLE (17);
 * ZQ_MARKED (42) if the image is marked by ZQ_DIRTY or ZQ_CORRUPT: an edit could free clusters in use;
 * ZQ_WRONG_LENGTH (31) if length isn't the cluster size; ZQ_ENTRY_RESERVED (18) or ZQ_ENTRY_UNALIGNED (19) of the
 * first invalid entry in the table; ZQ_BAD_EDIT (32) for the first edit of an unknown kind, past the table's end, or
 * to a host_offset that isn't a multiple of the cluster size, isn't below 2^56, or is 0 in an image without an
 * external data file; ZQ_WRONG_LENGTH (31) if a list is too short, for which edit_count elements are always enough.
 * ZQ_NO_MEMORY (35).
 *
 * After 18 and 19 *bad is the index of that entry, after 32 the position of that edit. If a list is too short,
 * *freed_count and *gained_count are the capacities needed. After any fault all else is unchanged.
 */
uint32_t zq_l2_edit(uint8_t *bytes, size_t length, const zq_header *header, const zq_edit *edits, size_t edit_count,
                    zq_clusters *freed, size_t freed_capacity, size_t *freed_count, uint64_t *gained,
                    size_t gained_capacity, size_t *gained_count, size_t *bad);

/*
 * Finds the mapping of a guest offset's cluster, by the bytes of a whole image, which may be mapped memory. Past its
 * last byte the image reads as zeros. Ignores the size of the guest's disk. Takes memory for the header's names, the
 * L1 table, and the L2 table that it reads.
 *
 * Faults: one of 1 to 21, the first of the header, the L1 table and the L2 table; ZQ_NO_MEMORY (35).
 */
uint32_t zq_image_lookup(const uint8_t *bytes, size_t length, uint64_t guest_offset, zq_mapping *mapping);

/*
 * Lists the extents of the guest's disk from an offset on, by the bytes of a whole image, which may be mapped memory.
 * Writes all up to the disk's end, or as many as capacity allows, and sets *count to their number. Elements after them
 * are unchanged. If *count is below capacity after ZQ_OK, the disk ends there. To go on, pass the end of the last
 * extent.
 *
 * The first extent begins at from_offset, which may lie anywhere in a cluster, and each other one at the end of the
 * one before. Each is as long as possible: data, and zeros with clusters, continue in consecutive host clusters, and
 * other content with the same kind. The last one ends at the disk's end, or before other content. Compressed clusters
 * are joined wherever their data lies, so their offset is 0. From the disk's end on there are no extents. Past its
 * last byte the image reads as zeros.
 *
 * Reads the header, the L1 table, and the L2 tables of these extents and of the last one's end, and no other L2 table.
 * Takes memory for the header's names, the L1 table, and one L2 table at a time.
 *
 * Faults: one of 1 to 21, the first of the header and the L1 table, after which *count is 0; then ZQ_ENTRY_RESERVED
 * (18) or ZQ_ENTRY_UNALIGNED (19) of an L2 table that is needed to know an extent, and ZQ_NO_MEMORY (35), after which
 * *count extents come before that extent.
 */
uint32_t zq_image_extents(const uint8_t *bytes, size_t length, uint64_t from_offset, zq_extent *extents, size_t capacity,
                          size_t *count);

/* Kinds of wrong clusters. A finding has one of these or the sum of several. */
enum zq_finding_kind {
    ZQ_FOUND_LEAKED = 1,  /* leaked: its refcount is above its references. Space is lost, nothing else */
    ZQ_FOUND_MISSING = 2, /* missing: its refcount is below its references. A write may destroy data */
    ZQ_FOUND_SHARED = 4   /* its references exclude each other, as those of guest data and of a table */
};

typedef struct zq_finding {
    uint32_t kinds;    /* the sum of its enum zq_finding_kind */
    uint32_t reserved; /* always 0 */
    uint64_t cluster;  /* its number: its host offset is cluster << cluster_bits */
    uint64_t counter;  /* its refcount; 0 if no refcount block counts it */
    uint64_t uses;     /* number of references to it */
} zq_finding;

/* The numbers of wrong clusters and copied flags. All are 0 in a consistent image. */
typedef struct zq_check_totals {
    uint64_t findings;    /* wrong clusters */
    uint64_t leaked;      /* those that are ZQ_FOUND_LEAKED */
    uint64_t missing;     /* those that are ZQ_FOUND_MISSING */
    uint64_t shared;      /* those that are ZQ_FOUND_SHARED */
    uint64_t false_flags; /* copied flags that are set though the refcount isn't one */
    uint64_t late_flags;  /* copied flags that are clear though the refcount is one, or the cluster lies in an
                             external data file: this only costs a copy */
} zq_check_totals;

/*
 * Checks an image by all its bytes, which may be mapped memory. Finds clusters whose refcount isn't their number of
 * references or whose references exclude each other, and wrong copied flags. Sets *totals. Writes the findings in the
 * order of clusters, all or as many as capacity allows, and sets *count to their number: if totals->findings is
 * greater, more were left out. Elements after them are unchanged. Past its last byte the image reads as zeros, and
 * references to clusters there count like others. An image that is marked dirty or corrupt is checked too:
 * zq_header_read tells its marks. Takes memory for the header's names, the L1 table, the refcount table, a refcount
 * block, an L2 table at a time, and the reference counts of a part of the clusters.
 *
 * Faults, in this order: one of 1 to 17 of the header; ZQ_UNCOUNTED (37) for an image with snapshots, bitmaps in use or
 * keys of LUKS at an unknown place, whose references aren't read; one of ZQ_ENTRY_RESERVED (18) to ZQ_TABLE_PLACE (21), the first of the L1
 * table, the refcount table, the places of its blocks and the L2 tables. ZQ_NO_MEMORY (35), after which elements of
 * findings may have changed.
 */
uint32_t zq_image_check(const uint8_t *bytes, size_t length, zq_finding *findings, size_t capacity, size_t *count,
                        zq_check_totals *totals);

#ifdef __cplusplus
}
#endif

#endif
