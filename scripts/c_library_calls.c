/* Calls each function of zaqulle.h with input that no caller should pass, and checks the fault, and that results stay
 * as they were. Compares with a reading by hand the mappings of 200,000 numbers in an L2 table, the extents of 400
 * tables, refcounts of refcount blocks, and edits of 4,000 tables. An unreadable page follows the bytes that it passes,
 * so that a read past them ends the program. Prints a line for each failed check. The status is 1 if one failed.
 * With the words map IMAGE or check IMAGE it prints the output of that command of qmeta instead, and with lookups IMAGE
 * the mappings of the first clusters of the guest's disk. Then the status is 1 after a fault. By check it prints no
 * flags, and a line for each cluster. With the word settle it only settles one refcount block, and with edit it only
 * edits a table. */
#define _DEFAULT_SOURCE
#include <fcntl.h>
#include <stdio.h>
#include <stdlib.h>
#include <string.h>
#include <sys/mman.h>
#include <sys/stat.h>

#include "zaqulle.h"

static int failures;

static void expect(const char *what, uint64_t number, uint64_t found, uint64_t expected) {
    if (found != expected) {
        printf("%s %llu: found %llu, expected %llu\n", what, (unsigned long long)number, (unsigned long long)found,
               (unsigned long long)expected);
        failures++;
    }
}

/* Whether all bytes of a result still have the filler's value. */
static int is_untouched(const void *result, size_t size) {
    for (size_t i = 0; i < size; i++) {
        if (((const unsigned char *)result)[i] != 0xa5) {
            return 0;
        }
    }
    return 1;
}

#define FILL(result) memset(&(result), 0xa5, sizeof(result))
#define EXPECT_UNTOUCHED(what, number, result) expect(what, number, (uint64_t)is_untouched(&(result), sizeof(result)), 1)

enum { ROOM = 1 << 17 };

/* A copy of these bytes, directly before an unreadable page. */
static const uint8_t *guarded(const uint8_t *bytes, size_t length) {
    static uint8_t *room;
    if (room == NULL) {
        room = (uint8_t *)mmap(NULL, 2 * ROOM, PROT_READ | PROT_WRITE, MAP_PRIVATE | MAP_ANONYMOUS, -1, 0);
        if (room == (uint8_t *)MAP_FAILED || mprotect(room + ROOM, ROOM, PROT_NONE) != 0) {
            perror("guarded");
            exit(2);
        }
    }
    memcpy(room + ROOM - length, bytes, length);
    return room + ROOM - length;
}

static void put(uint8_t *bytes, size_t place, int size, uint64_t value) {
    for (int i = size - 1; i >= 0; i--, value >>= 8) {
        bytes[place + (size_t)i] = (uint8_t)value;
    }
}

/* The first cluster of an image with clusters of 64 KiB and a backing file called "base". */
static void make_cluster(uint8_t *bytes) {
    memset(bytes, 0, 65536);
    put(bytes, 0, 4, 0x514649fb);
    put(bytes, 4, 4, 3);
    put(bytes, 8, 8, 65532);
    put(bytes, 16, 4, 4);
    put(bytes, 20, 4, 16);
    put(bytes, 24, 8, 1 << 20);
    put(bytes, 36, 4, 1);
    put(bytes, 40, 8, 0x30000);
    put(bytes, 48, 8, 0x10000);
    put(bytes, 56, 4, 1);
    put(bytes, 96, 4, 4);
    put(bytes, 100, 4, 104);
    memcpy(bytes + 65532, "base", 4);
}

/* A header of 104 bytes or more with one field changed, and the faults of zq_header_bytes and zq_header_read. */
static const struct {
    size_t place;
    int size;
    uint64_t value;
    uint32_t bytes_fault, read_fault;
} fields[] = {
    {4, 4, 3, ZQ_OK, ZQ_OK}, {0, 4, 0, ZQ_NOT_QCOW2, ZQ_NOT_QCOW2}, {4, 4, 1, ZQ_VERSION, ZQ_VERSION},
    {4, 4, 4, ZQ_VERSION, ZQ_VERSION}, {20, 4, 0, ZQ_CLUSTER_SIZE, ZQ_CLUSTER_SIZE},
    {20, 4, 8, ZQ_CLUSTER_SIZE, ZQ_CLUSTER_SIZE}, {20, 4, 22, ZQ_CLUSTER_SIZE, ZQ_CLUSTER_SIZE},
    {20, 4, 63, ZQ_CLUSTER_SIZE, ZQ_CLUSTER_SIZE}, {20, 4, UINT32_MAX, ZQ_CLUSTER_SIZE, ZQ_CLUSTER_SIZE},
    {20, 4, 21, ZQ_OK, ZQ_WRONG_LENGTH}, {100, 4, 103, ZQ_OK, ZQ_HEADER_SHORT}, {100, 4, 65537, ZQ_OK, ZQ_HEADER_BIG},
    {100, 4, 65536, ZQ_OK, ZQ_EXTENSIONS_EXCEED}, {100, 4, 65528, ZQ_OK, ZQ_EXTENSIONS_EXCEED},
    {40, 8, 1, ZQ_OK, ZQ_L1_UNALIGNED}, {48, 8, UINT64_MAX, ZQ_OK, ZQ_REFTABLE_UNALIGNED},
    {96, 4, 7, ZQ_OK, ZQ_REFCOUNT_WIDTH}, {16, 4, UINT32_MAX, ZQ_OK, ZQ_BACKING_NAME_LONG},
    {16, 4, 5, ZQ_OK, ZQ_BACKING_NAME_PLACE}, {8, 8, UINT64_MAX, ZQ_OK, ZQ_BACKING_NAME_PLACE},
    {65532, 1, 0xff, ZQ_OK, ZQ_BACKING_NAME_TEXT}, {108, 4, UINT32_MAX, ZQ_OK, ZQ_EXTENSIONS_EXCEED},
    {72, 8, UINT64_MAX, ZQ_OK, ZQ_INCOMPATIBLE}, {72, 8, 4, ZQ_OK, ZQ_OK}, {72, 8, 1, ZQ_OK, ZQ_OK},
    {72, 8, 7, ZQ_OK, ZQ_OK}, {72, 8, 8, ZQ_OK, ZQ_INCOMPATIBLE}, {72, 8, 17, ZQ_OK, ZQ_INCOMPATIBLE},
};

static void check_lengths(void) {
    static const size_t lengths[] = {0, 1, 7, 103, 104, 65535};
    uint8_t bytes[65536];
    make_cluster(bytes);
    for (size_t i = 0; i < sizeof lengths / sizeof *lengths; i++) {
        size_t length = lengths[i], size;
        zq_header header;
        FILL(size);
        FILL(header);
        uint32_t expected = length < 104 ? ZQ_WRONG_LENGTH : ZQ_OK;
        expect("zq_header_bytes of length", length, zq_header_bytes(guarded(bytes, length), length, &size), expected);
        expect("zq_header_read of length", length, zq_header_read(guarded(bytes, length), length, &header), ZQ_WRONG_LENGTH);
        EXPECT_UNTOUCHED("header after length", length, header);
        if (expected != ZQ_OK) {
            EXPECT_UNTOUCHED("size after length", length, size);
        }
    }
    size_t size;
    zq_header header;
    expect("zq_header_bytes of NULL", 0, zq_header_bytes(NULL, 0, &size), ZQ_WRONG_LENGTH);
    expect("zq_header_read of NULL", 0, zq_header_read(NULL, 0, &header), ZQ_WRONG_LENGTH);
}

/* Lengths that no object has. The calls refuse a table or block of such a length before they read a byte, zq_l2_check
 * only one without whole entries. Of a header they read only the first cluster, whatever follows. */
static void check_longest(void) {
    static const size_t lengths[] = {(size_t)1 << 63, ((size_t)1 << 63) - 8, ((size_t)1 << 63) + 8, SIZE_MAX - 7, SIZE_MAX};
    static const zq_edit edit = {4, 0, 0, 0};
    uint8_t bytes[65536];
    make_cluster(bytes);
    zq_header header;
    expect("zq_header_read of the cluster", 0, zq_header_read(bytes, sizeof bytes, &header), ZQ_OK);
    for (size_t i = 0; i < sizeof lengths / sizeof *lengths; i++) {
        size_t length = lengths[i], index, count, freed, gained, bad;
        const uint8_t *whole = guarded(bytes, sizeof bytes), *none = guarded(bytes, 0);
        uint8_t *table = (uint8_t *)(uintptr_t)none;
        FILL(index);
        FILL(count);
        expect("zq_header_bytes of row", i, zq_header_bytes(whole, length, &index), ZQ_OK);
        expect("zq_header_read of row", i, zq_header_read(whole, length, &header), ZQ_OK);
        FILL(index);
        expect("zq_l2_check of row", i, zq_l2_check(none, length | 1, &header, &index), ZQ_WRONG_LENGTH);
        EXPECT_UNTOUCHED("index after row", i, index);
        expect("zq_l2_extents of row", i, zq_l2_extents(none, length, &header, 0, NULL, 0, &count), ZQ_WRONG_LENGTH);
        EXPECT_UNTOUCHED("count after row", i, count);
        expect("zq_refcounts_read of row", i, zq_refcounts_read(none, length, 4, 0, NULL, 0), ZQ_WRONG_LENGTH);
        expect("zq_refcounts_settle of row", i, zq_refcounts_settle(table, length, 4, 0, NULL, 0, NULL, 0), ZQ_WRONG_LENGTH);
        expect("zq_l2_edit of row", i,
               zq_l2_edit(table, length, &header, &edit, 1, NULL, 0, &freed, NULL, 0, &gained, &bad), ZQ_WRONG_LENGTH);
    }
}

static void check_fields(void) {
    uint8_t bytes[65536];
    for (size_t i = 0; i < sizeof fields / sizeof *fields; i++) {
        size_t size;
        zq_header header;
        FILL(size);
        FILL(header);
        make_cluster(bytes);
        put(bytes, fields[i].place, fields[i].size, fields[i].value);
        expect("zq_header_bytes of row", i, zq_header_bytes(guarded(bytes, 104), 104, &size), fields[i].bytes_fault);
        expect("zq_header_read of row", i, zq_header_read(guarded(bytes, 65536), 65536, &header), fields[i].read_fault);
        if (fields[i].bytes_fault != ZQ_OK) {
            EXPECT_UNTOUCHED("size after row", i, size);
        }
        if (fields[i].read_fault != ZQ_OK) {
            EXPECT_UNTOUCHED("header after row", i, header);
        } else {
            expect("size of row", i, size, 65536);
            expect("backing_name.offset of row", i, header.backing_name.offset, 65532);
            expect("backing_name.length of row", i, header.backing_name.length, 4);
        }
    }
}

/* Each field of a header gets a number of its own, and must have it in the struct of the header file. */
static void check_all_fields(void) {
    static const zq_header expected = {3, 16, 6, 11, UINT64_C(0x102030405060708), 0x10000, 0x20000, 12, 13, 4,
                                       UINT64_C(1) << 63, 15, 0x30000, 14, {65532, 4}, {112, 3}, {128, 2}};
    uint8_t bytes[65536];
    zq_header header;
    FILL(header);
    make_cluster(bytes);
    put(bytes, 24, 8, expected.size);
    put(bytes, 32, 4, expected.crypt_method);
    put(bytes, 36, 4, expected.l1_entries);
    put(bytes, 40, 8, expected.l1_offset);
    put(bytes, 48, 8, expected.reftable_offset);
    put(bytes, 56, 4, expected.reftable_clusters);
    put(bytes, 60, 4, expected.snapshots);
    put(bytes, 64, 8, expected.snapshots_offset);
    put(bytes, 72, 8, expected.incompatible_features);
    put(bytes, 80, 8, expected.compatible_features);
    put(bytes, 88, 8, expected.autoclear_features);
    put(bytes, 96, 4, expected.refcount_order);
    memcpy(bytes + 104, "\xe2\x79\x2a\xca\0\0\0\003raw\0\0\0\0\0DATA\0\0\0\002ab", 26);
    expect("zq_header_read of version", 3, zq_header_read(guarded(bytes, 65536), 65536, &header), ZQ_OK);
    size_t size = offsetof(zq_header, data_file) + sizeof header.data_file;
    expect("all fields of version", 3, (uint64_t)memcmp(&header, &expected, size), 0);
}

/* Fields that no header has, and the fault of the calls that read them. */
static const struct {
    uint32_t cluster_bits;
    uint64_t incompatible_features;
    uint32_t fault;
} made_up[] = {
    {0, 0, ZQ_CLUSTER_SIZE}, {8, 0, ZQ_CLUSTER_SIZE}, {22, 0, ZQ_CLUSTER_SIZE}, {63, 0, ZQ_CLUSTER_SIZE},
    {64, 0, ZQ_CLUSTER_SIZE}, {UINT32_MAX, UINT64_MAX, ZQ_CLUSTER_SIZE}, {16, 17, ZQ_INCOMPATIBLE},
    {16, 16, ZQ_INCOMPATIBLE}, {21, UINT64_MAX, ZQ_INCOMPATIBLE}, {9, 0, ZQ_OK}, {21, 4, ZQ_OK}, {16, 11, ZQ_OK},
};

static void check_made_up(void) {
    static const uint8_t zeros[16] = {0};
    for (size_t i = 0; i < sizeof made_up / sizeof *made_up; i++) {
        zq_header header;
        zq_mapping mapping;
        uint64_t offset;
        uint32_t copied;
        size_t index;
        FILL(header);
        FILL(mapping);
        FILL(offset);
        FILL(copied);
        FILL(index);
        header.cluster_bits = made_up[i].cluster_bits;
        header.incompatible_features = made_up[i].incompatible_features;
        uint32_t fault = made_up[i].fault;
        expect("zq_l1_entry of header", i, zq_l1_entry(0, &header, &offset, &copied), fault);
        expect("zq_l2_entry of header", i, zq_l2_entry(0, &header, UINT64_MAX, &mapping), fault);
        expect("zq_l2_check of header", i, zq_l2_check(guarded(zeros, 16), 16, &header, &index), fault);
        expect("zq_l2_check of NULL by header", i, zq_l2_check(NULL, 0, &header, &index), fault);
        EXPECT_UNTOUCHED("index after header", i, index);
        expect("zq_l2_extents of header", i, zq_l2_extents(NULL, 0, &header, 0, NULL, 0, &index), fault);
        if (fault != ZQ_OK) {
            EXPECT_UNTOUCHED("index of extents after header", i, index);
            EXPECT_UNTOUCHED("offset after header", i, offset);
            EXPECT_UNTOUCHED("copied after header", i, copied);
            EXPECT_UNTOUCHED("mapping after header", i, mapping);
        }
    }
}

/* Numbers with clusters of 64 KiB, the fault if they are no entries, and their mapping of guest offset 0x20001. */
static const struct {
    uint64_t number;
    uint32_t l1_fault, l2_fault;
    zq_mapping mapping;
} numbers[] = {
    {0, ZQ_OK, ZQ_OK, {ZQ_BACKING, 0, 0x20000, 65536}},
    {UINT64_C(1) << 63 | 0x50000, ZQ_OK, ZQ_OK, {ZQ_DATA, 1, 0x50000, 65536}},
    {0x50000, ZQ_OK, ZQ_OK, {ZQ_DATA, 0, 0x50000, 65536}},
    {1, ZQ_ENTRY_RESERVED, ZQ_OK, {ZQ_ZERO, 0, 0, 0}},
    {UINT64_C(1) << 63 | 0x50001, ZQ_ENTRY_RESERVED, ZQ_OK, {ZQ_ZERO_ALLOCATED, 1, 0x50000, 65536}},
    {UINT64_C(1) << 62 | 0x50010, ZQ_ENTRY_RESERVED, ZQ_OK, {ZQ_COMPRESSED, 0, 0x50010, 496}},
    {0x200, ZQ_ENTRY_UNALIGNED, ZQ_ENTRY_UNALIGNED, {0, 0, 0, 0}},
    {2, ZQ_ENTRY_RESERVED, ZQ_ENTRY_RESERVED, {0, 0, 0, 0}},
    {UINT64_MAX, ZQ_ENTRY_RESERVED, ZQ_ENTRY_RESERVED, {0, 0, 0, 0}},
};

static void check_numbers(void) {
    zq_header header;
    FILL(header);
    header.cluster_bits = 16;
    header.incompatible_features = 0;
    for (size_t i = 0; i < sizeof numbers / sizeof *numbers; i++) {
        uint64_t offset;
        uint32_t copied;
        size_t index;
        zq_mapping mapping;
        uint8_t bytes[16] = {0};
        FILL(offset);
        FILL(copied);
        FILL(index);
        FILL(mapping);
        put(bytes, 8, 8, numbers[i].number);
        expect("zq_l1_entry of number", i, zq_l1_entry(numbers[i].number, &header, &offset, &copied), numbers[i].l1_fault);
        expect("zq_l2_entry of number", i, zq_l2_entry(numbers[i].number, &header, 0x20001, &mapping), numbers[i].l2_fault);
        expect("zq_l2_check of number", i, zq_l2_check(guarded(bytes, 16), 16, &header, &index), numbers[i].l2_fault);
        expect("zq_l2_check of 15 bytes", i, zq_l2_check(guarded(bytes, 15), 15, &header, &index), ZQ_WRONG_LENGTH);
        if (numbers[i].l1_fault != ZQ_OK) {
            EXPECT_UNTOUCHED("offset after number", i, offset);
            EXPECT_UNTOUCHED("copied after number", i, copied);
        } else {
            expect("offset of number", i, offset, numbers[i].number & 0x7fffffffffffffff);
            expect("copied of number", i, copied, numbers[i].number >> 63);
        }
        if (numbers[i].l2_fault != ZQ_OK) {
            expect("index of number", i, index, 1);
            EXPECT_UNTOUCHED("mapping after number", i, mapping);
        } else {
            EXPECT_UNTOUCHED("index after number", i, index);
            expect("mapping of number", i, (uint64_t)memcmp(&mapping, &numbers[i].mapping, sizeof mapping), 0);
        }
    }
}

/* An image of five clusters: the header, the L1 table, an empty refcount table, an L2 table, and data of the first of 16
 * guest clusters. */
static uint8_t image[0x50000];

static void make_image(void) {
    memset(image, 0, sizeof image);
    make_cluster(image);
    put(image, 40, 8, 0x10000);
    put(image, 48, 8, 0x20000);
    put(image, 0x10000, 8, UINT64_C(1) << 63 | 0x30000);
    put(image, 0x30000, 8, UINT64_C(1) << 63 | 0x40000);
}

/* Lookups in the image, with more and more damages. */
static void check_lookups(void) {
    zq_mapping found, data = {ZQ_DATA, 1, 0x40000, 65536}, backing = {ZQ_BACKING, 0, 0x10000, 65536};
    make_image();
    FILL(found);
    expect("zq_image_lookup of data", 0, zq_image_lookup(image, sizeof image, 65535, &found), ZQ_OK);
    expect("mapping of data", 0, (uint64_t)memcmp(&found, &data, sizeof found), 0);
    expect("zq_image_lookup of backing", 0, zq_image_lookup(image, sizeof image, 65536, &found), ZQ_OK);
    expect("mapping of backing", 0, (uint64_t)memcmp(&found, &backing, sizeof found), 0);
    FILL(found);
    expect("zq_image_lookup of NULL", 0, zq_image_lookup(NULL, 0, 0, &found), ZQ_NOT_QCOW2);
    expect("zq_image_lookup of one byte", 0, zq_image_lookup(guarded(image, 1), 1, UINT64_MAX, &found), ZQ_NOT_QCOW2);
    image[0x30007] = 2;
    expect("zq_image_lookup of a bad entry", 0, zq_image_lookup(image, sizeof image, 65536, &found), ZQ_ENTRY_RESERVED);
    put(image, 0x10000, 8, UINT64_C(0xffffffffff0000));
    expect("zq_image_lookup of a place", 0, zq_image_lookup(image, sizeof image, 0, &found), ZQ_OK);
    put(image, 36, 4, UINT32_MAX);
    FILL(found);
    expect("zq_image_lookup of a large L1 table", 0, zq_image_lookup(image, sizeof image, 0, &found), ZQ_TABLE_TOO_BIG);
    EXPECT_UNTOUCHED("mapping of a large L1 table", 0, found);
}

/* Changes of the image, the first guest offset and the room for extents, the fault, and the extents. */
static const struct {
    size_t place;
    int size;
    uint64_t value, from;
    size_t capacity;
    uint32_t fault;
    size_t count;
    zq_extent extents[2];
} extent_rows[] = {
    {0, 0, 0, 0, 4, ZQ_OK, 2, {{ZQ_DATA, 0, 0, 65536, 0x40000}, {ZQ_BACKING, 0, 65536, 0xf0000, 65536}}},
    {0, 0, 0, 0, 2, ZQ_OK, 2, {{ZQ_DATA, 0, 0, 65536, 0x40000}, {ZQ_BACKING, 0, 65536, 0xf0000, 65536}}},
    {0, 0, 0, 0, 1, ZQ_OK, 1, {{ZQ_DATA, 0, 0, 65536, 0x40000}}},
    {0, 0, 0, 0, 0, ZQ_OK, 0, {{0, 0, 0, 0, 0}}},
    {0, 0, 0, 65535, 4, ZQ_OK, 2, {{ZQ_DATA, 0, 65535, 1, 0x4ffff}, {ZQ_BACKING, 0, 65536, 0xf0000, 65536}}},
    {0, 0, 0, 0xfffff, 4, ZQ_OK, 1, {{ZQ_BACKING, 0, 0xfffff, 1, 0xfffff}}},
    {0, 0, 0, 0x100000, 4, ZQ_OK, 0, {{0, 0, 0, 0, 0}}},
    {0, 0, 0, UINT64_MAX, 4, ZQ_OK, 0, {{0, 0, 0, 0, 0}}},
    {0x30000, 8, 1, 0, 4, ZQ_OK, 2, {{ZQ_ZERO, 0, 0, 65536, 0}, {ZQ_BACKING, 0, 65536, 0xf0000, 65536}}},
    {0x30000, 8, 0x40001, 1, 1, ZQ_OK, 1, {{ZQ_ZERO_ALLOCATED, 0, 1, 65535, 0x40001}}},
    {0x30000, 8, UINT64_C(1) << 62 | 0x40010, 1, 1, ZQ_OK, 1, {{ZQ_COMPRESSED, 0, 1, 65535, 0}}},
    {0x30008, 8, 0x50000, 1, 1, ZQ_OK, 1, {{ZQ_DATA, 0, 1, 0x1ffff, 0x40001}}},
    {24, 8, 1, 0, 4, ZQ_OK, 1, {{ZQ_DATA, 0, 0, 1, 0x40000}}},
    {24, 8, 0, 0, 4, ZQ_OK, 0, {{0, 0, 0, 0, 0}}},
    {24, 8, UINT64_MAX, UINT64_MAX - 1, 4, ZQ_OK, 1, {{ZQ_BACKING, 0, UINT64_MAX - 1, 1, UINT64_MAX - 1}}},
    {0x30007, 1, 2, 0, 4, ZQ_ENTRY_RESERVED, 0, {{0, 0, 0, 0, 0}}},
    {0x30006, 1, 2, 0, 4, ZQ_ENTRY_UNALIGNED, 0, {{0, 0, 0, 0, 0}}},
    {0x10007, 1, 1, 0, 0, ZQ_ENTRY_RESERVED, 0, {{0, 0, 0, 0, 0}}},
    {36, 4, UINT32_MAX, UINT64_MAX, 4, ZQ_TABLE_TOO_BIG, 0, {{0, 0, 0, 0, 0}}},
    {40, 8, UINT64_C(0xffffffffffff0000), 0, 4, ZQ_TABLE_PLACE, 0, {{0, 0, 0, 0, 0}}},
    {100, 4, 65537, 0, 4, ZQ_HEADER_BIG, 0, {{0, 0, 0, 0, 0}}},
};

static void check_image_extents(void) {
    size_t count;
    for (size_t i = 0; i < sizeof extent_rows / sizeof *extent_rows; i++) {
        zq_extent found[4];
        size_t expected = extent_rows[i].count;
        FILL(found);
        FILL(count);
        make_image();
        put(image, extent_rows[i].place, extent_rows[i].size, extent_rows[i].value);
        expect("zq_image_extents of row", i,
               zq_image_extents(image, sizeof image, extent_rows[i].from, found, extent_rows[i].capacity, &count),
               extent_rows[i].fault);
        expect("count of row", i, count, expected);
        expect("extents of row", i, (uint64_t)memcmp(found, extent_rows[i].extents, expected * sizeof *found), 0);
        expect("rest of row", i, (uint64_t)is_untouched(found + expected, (4 - expected) * sizeof *found), 1);
    }
    FILL(count);
    make_image();
    expect("zq_image_extents into NULL", 0, zq_image_extents(image, sizeof image, 0, NULL, 0, &count), ZQ_OK);
    expect("count into NULL", 0, count, 0);
    FILL(count);
    expect("zq_image_extents of NULL", 0, zq_image_extents(NULL, 0, 0, NULL, 0, &count), ZQ_NOT_QCOW2);
    expect("count of NULL", 0, count, 0);
    /* A table in the second half of the disk is damaged: the call returns the extents before it. */
    put(image, 24, 8, UINT64_C(1) << 30);
    put(image, 36, 4, 2);
    put(image, 0x10008, 8, 0x20000);
    put(image, 0x20000, 8, 2);
    zq_extent found[4], data = {ZQ_DATA, 0, 0, 65536, 0x40000};
    expect("zq_image_extents before a fault", 0, zq_image_extents(image, sizeof image, 0, found, 4, &count), ZQ_ENTRY_RESERVED);
    expect("count before a fault", 0, count, 1);
    expect("extent before a fault", 0, (uint64_t)memcmp(found, &data, sizeof data), 0);
}

/* Changes of the image, the room for findings, the fault, the findings and the totals. The image has no refcount block,
 * so that its five clusters are missing, and two flags are false. */
static const struct {
    size_t place;
    int size;
    uint64_t value;
    size_t capacity;
    uint32_t fault;
    size_t count;
    zq_finding findings[2];
    zq_check_totals totals;
} check_rows[] = {
    {0, 0, 0, 2, ZQ_OK, 2, {{ZQ_FOUND_MISSING, 0, 0, 0, 1}, {ZQ_FOUND_MISSING, 0, 1, 0, 1}}, {5, 0, 5, 0, 2, 0}},
    {0, 0, 0, 1, ZQ_OK, 1, {{ZQ_FOUND_MISSING, 0, 0, 0, 1}}, {5, 0, 5, 0, 2, 0}},
    {0, 0, 0, 0, ZQ_OK, 0, {{0, 0, 0, 0, 0}}, {5, 0, 5, 0, 2, 0}},
    {0x30000, 1, 0, 2, ZQ_OK, 2, {{ZQ_FOUND_MISSING, 0, 0, 0, 1}, {ZQ_FOUND_MISSING, 0, 1, 0, 1}}, {5, 0, 5, 0, 1, 0}},
    {0x30005, 1, 0, 1, ZQ_OK, 1, {{ZQ_FOUND_MISSING, 0, 0, 0, 1}}, {4, 0, 4, 0, 1, 0}},
    {0x30005, 1, 1, 2, ZQ_OK, 2, {{ZQ_FOUND_MISSING, 0, 0, 0, 1}, {ZQ_FOUND_MISSING | ZQ_FOUND_SHARED, 0, 1, 0, 2}},
     {4, 0, 4, 1, 2, 0}},
    {60, 4, 1, 2, ZQ_UNCOUNTED, 0, {{0, 0, 0, 0, 0}}, {0, 0, 0, 0, 0, 0}},
    {0x10007, 1, 1, 2, ZQ_ENTRY_RESERVED, 0, {{0, 0, 0, 0, 0}}, {0, 0, 0, 0, 0, 0}},
    {0x20007, 1, 1, 2, ZQ_ENTRY_RESERVED, 0, {{0, 0, 0, 0, 0}}, {0, 0, 0, 0, 0, 0}},
    {0x20000, 8, UINT64_C(0xffffffffffff0000), 2, ZQ_TABLE_PLACE, 0, {{0, 0, 0, 0, 0}}, {0, 0, 0, 0, 0, 0}},
    {0x30006, 1, 2, 2, ZQ_ENTRY_UNALIGNED, 0, {{0, 0, 0, 0, 0}}, {0, 0, 0, 0, 0, 0}},
    {36, 4, UINT32_MAX, 2, ZQ_TABLE_TOO_BIG, 0, {{0, 0, 0, 0, 0}}, {0, 0, 0, 0, 0, 0}},
    {0, 4, 0, 2, ZQ_NOT_QCOW2, 0, {{0, 0, 0, 0, 0}}, {0, 0, 0, 0, 0, 0}},
};

static void check_checks(void) {
    zq_check_totals totals;
    size_t count;
    for (size_t i = 0; i < sizeof check_rows / sizeof *check_rows; i++) {
        zq_finding found[3];
        size_t expected = check_rows[i].count;
        FILL(found);
        FILL(count);
        FILL(totals);
        make_image();
        put(image, check_rows[i].place, check_rows[i].size, check_rows[i].value);
        expect("zq_image_check of row", i,
               zq_image_check(image, sizeof image, found, check_rows[i].capacity, &count, &totals), check_rows[i].fault);
        expect("findings of row", i, (uint64_t)memcmp(found, check_rows[i].findings, expected * sizeof *found), 0);
        expect("rest of findings of row", i, (uint64_t)is_untouched(found + expected, (3 - expected) * sizeof *found), 1);
        if (check_rows[i].fault != ZQ_OK) {
            EXPECT_UNTOUCHED("count after row", i, count);
            EXPECT_UNTOUCHED("totals after row", i, totals);
        } else {
            expect("count of findings of row", i, count, expected);
            expect("totals of row", i, (uint64_t)memcmp(&totals, &check_rows[i].totals, sizeof totals), 0);
        }
    }
    FILL(totals);
    expect("zq_image_check of NULL", 0, zq_image_check(NULL, 0, NULL, 0, &count, &totals), ZQ_NOT_QCOW2);
    EXPECT_UNTOUCHED("totals of NULL", 0, totals);
}

/* The mapping of guest cluster 0 by a number in an L2 table, read by hand. */
static uint32_t read_by_hand(uint64_t number, const zq_header *header, zq_mapping *mapping) {
    uint32_t bits = header->cluster_bits;
    uint64_t size = UINT64_C(1) << bits, offset = number & UINT64_C(0xfffffffffffe00), copied = number >> 63;
    if (number >> 62 & 1) {
        offset = number % (UINT64_C(1) << (70 - bits));
        uint64_t sectors = (number >> (70 - bits)) % (UINT64_C(1) << (bits - 8)) + 1;
        *mapping = (zq_mapping){ZQ_COMPRESSED, 0, offset, sectors * 512 - offset % 512};
        return copied || offset >> 56 ? ZQ_ENTRY_RESERVED : ZQ_OK;
    }
    int has_cluster = offset != 0 || (copied && header->incompatible_features == 4);
    uint32_t kind = has_cluster ? (number & 1 ? ZQ_ZERO_ALLOCATED : ZQ_DATA) : (number & 1 ? ZQ_ZERO : ZQ_BACKING);
    *mapping = (zq_mapping){kind, has_cluster ? (uint32_t)copied : 0, offset, kind == ZQ_ZERO ? 0 : size};
    return number & UINT64_C(0x3f000000000001fe) ? ZQ_ENTRY_RESERVED : offset % size ? ZQ_ENTRY_UNALIGNED : ZQ_OK;
}

/* The next of a series of numbers that look random. */
static uint64_t next_random(uint64_t *state) {
    *state = *state * UINT64_C(6364136223846793005) + UINT64_C(1442695040888963407);
    return *state ^ *state >> 29;
}

/* Numbers of mostly random bits, some of them cleared so that many numbers are entries. */
static void check_random_numbers(void) {
    uint64_t state = 1;
    for (uint64_t i = 0; i < 200000; i++) {
        zq_header header;
        zq_mapping found, expected;
        FILL(header);
        header.cluster_bits = 9 + (uint32_t)(next_random(&state) >> 32) % 13;
        header.incompatible_features = i % 2 * 4;
        uint64_t number = next_random(&state), mask = next_random(&state);
        number &= i % 3 ? ~UINT64_C(0x3f000000000001fe) | (i % 64 ? 0 : mask) : mask;
        number &= i % 5 ? ~(((UINT64_C(1) << header.cluster_bits) - 1) & ~UINT64_C(0x1ff)) : UINT64_MAX;
        number &= i % 7 ? UINT64_MAX : ~UINT64_C(0xfffffffffffe00);
        uint32_t fault = read_by_hand(number, &header, &expected);
        expect("zq_l2_entry of random number", i, zq_l2_entry(number, &header, 0, &found), fault);
        if (fault == ZQ_OK) {
            expect("mapping of random number", i, (uint64_t)memcmp(&found, &expected, sizeof found), 0);
        }
    }
}

/* The place of a bit of refcount i of a block: in a byte the first refcount is the lowest, and a wider one begins with
 * its highest byte. */
static size_t place_of_bit(uint32_t order, size_t i, size_t bit) {
    return order < 3 ? (i << order) + bit : 8 * (((i + 1) << (order - 3)) - 1 - bit / 8) + bit % 8;
}

/* Refcount i of a block, read bit by bit. */
static uint64_t counter_by_hand(const uint8_t *block, uint32_t order, size_t i) {
    uint64_t counter = 0;
    for (size_t bit = 0; bit < (size_t)1 << order; bit++) {
        size_t place = place_of_bit(order, i, bit);
        counter |= (uint64_t)(block[place / 8] >> place % 8 & 1) << bit;
    }
    return counter;
}

/* Writes a number to refcount i of a block, bit by bit. */
static void put_counter_by_hand(uint8_t *block, uint32_t order, size_t i, uint64_t counter) {
    for (size_t bit = 0; bit < (size_t)1 << order; bit++) {
        size_t place = place_of_bit(order, i, bit);
        block[place / 8] = (uint8_t)((block[place / 8] & ~(1 << place % 8)) | (counter >> bit & 1) << place % 8);
    }
}

/* Blocks of random bytes, with clusters of 512 bytes, 64 KiB and 2 MiB, and refcounts of each width. */
static void check_refcounts(void) {
    static const size_t sizes[] = {512, 1 << 16, 1 << 21};
    uint8_t *block = (uint8_t *)malloc(1 << 21);
    uint64_t state = 2, found[64];
    for (size_t i = 0; block != NULL && i < 1 << 21; i++) {
        block[i] = (uint8_t)(next_random(&state) >> 40);
    }
    for (size_t row = 0; block != NULL && row < 21; row++) {
        uint32_t order = (uint32_t)(row / 3);
        size_t size = sizes[row % 3], entries = (size * 8) >> order, first = row % 2 ? entries - 64 : 0;
        expect("zq_refcounts_read of row", row, zq_refcounts_read(block, size, order, first, found, 64), ZQ_OK);
        for (size_t i = 0; i < 64; i++) {
            expect("counter", first + i, found[i], counter_by_hand(block, order, first + i));
        }
    }
    free(block);
}

/* The bytes of a block that are passed, its refcount order, the refcounts that are asked for, and the fault. */
static const struct {
    size_t length;
    uint32_t order;
    size_t first, count;
    uint32_t fault;
} refcounts[] = {
    {512, 7, 0, 1, ZQ_REFCOUNT_WIDTH}, {0, UINT32_MAX, SIZE_MAX, 4, ZQ_REFCOUNT_WIDTH}, {0, 4, 0, 0, ZQ_WRONG_LENGTH},
    {256, 4, 0, 1, ZQ_WRONG_LENGTH}, {511, 0, 0, 1, ZQ_WRONG_LENGTH}, {513, 0, 0, 1, ZQ_WRONG_LENGTH},
    {1536, 4, 0, 1, ZQ_WRONG_LENGTH}, {512, 4, 255, 1, ZQ_OK}, {512, 4, 255, 2, ZQ_BAD_STEP}, {512, 4, 256, 0, ZQ_OK},
    {512, 4, 256, 1, ZQ_BAD_STEP}, {512, 6, 60, 4, ZQ_OK}, {512, 0, 4092, 4, ZQ_OK}, {512, 0, 4093, 4, ZQ_BAD_STEP},
    {512, 4, 257, 0, ZQ_BAD_STEP}, {512, 4, SIZE_MAX, 4, ZQ_BAD_STEP}, {1 << 16, 6, 8191, 2, ZQ_BAD_STEP},
};

static void check_refused_refcounts(void) {
    static const uint8_t block[1 << 16] = {0};
    for (size_t i = 0; i < sizeof refcounts / sizeof *refcounts; i++) {
        size_t length = refcounts[i].length, first = refcounts[i].first, count = refcounts[i].count;
        uint64_t found[4];
        FILL(found);
        uint32_t fault = zq_refcounts_read(guarded(block, length), length, refcounts[i].order, first, found, count);
        expect("zq_refcounts_read of refused row", i, fault, refcounts[i].fault);
        size_t kept = refcounts[i].fault == ZQ_OK ? count : 0;
        expect("counters after row", i, (uint64_t)is_untouched(found + kept, sizeof found - 8 * kept), 1);
    }
    expect("zq_refcounts_read of NULL", 0, zq_refcounts_read(NULL, 0, 4, 0, NULL, 0), ZQ_WRONG_LENGTH);
    expect("zq_refcounts_read of no counter", 0, zq_refcounts_read(block, 512, 4, 0, NULL, 0), ZQ_OK);
}

/* An edit that frees ranges of clusters and gains clusters. */
typedef struct {
    zq_clusters freed[3];
    uint64_t gained[5];
} drawn_edit;

/* Counts an edit in a block by hand: all gains, then all losses. Returns whether no refcount left its range. */
static int settle_by_hand(uint8_t *block, size_t size, uint32_t order, uint64_t index, const drawn_edit *edit) {
    uint64_t entries = (size * 8) >> order, greatest = UINT64_MAX >> (64 - (1 << order));
    for (size_t i = 0; i < 5; i++) {
        uint64_t at = edit->gained[i] - index * entries;
        if (at < entries) {
            uint64_t counter = counter_by_hand(block, order, at);
            if (counter == greatest) {
                return 0;
            }
            put_counter_by_hand(block, order, at, counter + 1);
        }
    }
    for (size_t i = 0; i < 3; i++) {
        for (uint64_t k = 0; k < edit->freed[i].count; k++) {
            uint64_t at = edit->freed[i].first + k - index * entries;
            uint64_t counter = at < entries ? counter_by_hand(block, order, at) : 1;
            if (counter == 0) {
                return 0;
            }
            if (at < entries) {
                put_counter_by_hand(block, order, at, counter - 1);
            }
        }
    }
    return 1;
}

/* Compares an edit settled near a border of a block with the same by hand. Returns whether the call made it. */
static int check_drawn_edit(const uint8_t *before, size_t size, uint32_t order, uint64_t *state) {
    static uint8_t found[1 << 21], expected[1 << 21];
    uint64_t entries = (size * 8) >> order, index = 1 + (next_random(state) >> 40) % 9;
    uint64_t border = (index + (next_random(state) >> 40) % 2) * entries;
    drawn_edit edit;
    for (size_t i = 0; i < 5; i++) {
        edit.gained[i] = border - 16 + (next_random(state) >> 40) % 32;
        edit.freed[i % 3].first = border - 16 + (next_random(state) >> 40) % 32;
        edit.freed[i % 3].count = (next_random(state) >> 40) % 4;
    }
    memcpy(found, before, size);
    memcpy(expected, before, size);
    int is_made = settle_by_hand(expected, size, order, index, &edit);
    if (!is_made) {
        memcpy(expected, before, size);
    }
    uint32_t fault = zq_refcounts_settle(found, size, order, index, edit.freed, 3, edit.gained, 5);
    expect("zq_refcounts_settle of order", order, fault, is_made ? ZQ_OK : ZQ_COUNTER_RANGE);
    expect("block settled with order", order, (uint64_t)memcmp(found, expected, size), 0);
    return is_made;
}

/* Blocks whose bytes are random, or 0, or 0xff. */
static void check_settled_refcounts(void) {
    static const size_t sizes[] = {512, 1 << 16, 1 << 21};
    static uint8_t block[1 << 21];
    uint64_t state = 3, made = 0, refused = 0;
    for (size_t i = 0; i < sizeof block; i++) {
        uint64_t drawn = next_random(&state) >> 40;
        block[i] = (uint8_t)(drawn & 0x300 ? drawn : drawn & 0x400 ? 0xff : 0);
    }
    for (uint32_t order = 0; order <= 6; order++) {
        for (int i = 0; i < 120; i++) {
            size_t size = sizes[i < 100 ? 0 : i < 119 || order < 4 ? 1 : 2];
            int is_made = check_drawn_edit(block, size, order, &state);
            made += (uint64_t)is_made;
            refused += (uint64_t)!is_made;
        }
    }
    expect("edits of both kinds", 0, made > 100 && refused > 100, 1);
}

/* The bytes of a block that are passed, its refcount order, its index, a freed range, and the fault. */
static const struct {
    size_t length;
    uint32_t order;
    uint64_t index;
    zq_clusters freed;
    uint32_t fault;
} settled[] = {
    {512, 7, 0, {0, 1}, ZQ_REFCOUNT_WIDTH}, {0, UINT32_MAX, 0, {0, 0}, ZQ_REFCOUNT_WIDTH},
    {0, 4, 0, {0, 0}, ZQ_WRONG_LENGTH}, {511, 4, 0, {0, 1}, ZQ_WRONG_LENGTH}, {1536, 4, 0, {0, 1}, ZQ_WRONG_LENGTH},
    {512, 4, 0, {0, 1}, ZQ_COUNTER_RANGE}, {512, 4, 0, {0, 0}, ZQ_OK}, {512, 4, 0, {256, UINT64_MAX}, ZQ_OK},
    {512, 4, 0, {255, 1}, ZQ_COUNTER_RANGE}, {512, 4, 1, {0, UINT64_MAX}, ZQ_COUNTER_RANGE}, {512, 4, 1, {0, 256}, ZQ_OK},
    {512, 4, UINT64_MAX, {0, UINT64_MAX}, ZQ_OK}, {512, 0, UINT64_MAX, {UINT64_MAX, UINT64_MAX}, ZQ_OK},
    {1 << 16, 6, UINT64_MAX / 8192, {UINT64_MAX, 1}, ZQ_COUNTER_RANGE},
};

/* Refcounts of 0 stay 0, whatever the fault. */
static void check_refused_settles(void) {
    static const uint8_t zeros[1 << 16] = {0};
    for (size_t i = 0; i < sizeof settled / sizeof *settled; i++) {
        size_t length = settled[i].length;
        uint8_t *block = (uint8_t *)(uintptr_t)guarded(zeros, length);
        expect("zq_refcounts_settle of row", i,
               zq_refcounts_settle(block, length, settled[i].order, settled[i].index, &settled[i].freed, 1, NULL, 0),
               settled[i].fault);
        expect("block of row", i, (uint64_t)memcmp(block, zeros, length), 0);
    }
    expect("zq_refcounts_settle of NULL", 0, zq_refcounts_settle(NULL, 0, 4, 0, NULL, 0, NULL, 0), ZQ_WRONG_LENGTH);
}

/* Settles one block. After a fault prints its number, and whether bytes have changed. */
static int settle_once(void) {
    static const zq_clusters freed = {3, 1};
    static const uint64_t gained = 4;
    uint8_t block[512] = {0, 0, 0, 0, 0, 0, 0, 1}, before[512];
    memcpy(before, block, sizeof block);
    uint32_t fault = zq_refcounts_settle(block, sizeof block, 4, 0, &freed, 1, &gained, 1);
    if (fault != ZQ_OK) {
        fprintf(stderr, "settle: fault %u\n", (unsigned)fault);
        expect("changed bytes after fault", fault, memcmp(block, before, sizeof block) != 0, 0);
    }
    return fault != ZQ_OK;
}

/* Makes one edit of a table by hand. Gives the clusters that lost a reference, none if the count is 0, and returns
 * whether one gained a reference. */
static int edit_by_hand(uint8_t *table, const zq_header *header, const zq_edit *edit, zq_clusters *lost) {
    uint32_t bits = header->cluster_bits, offset_bits = 70 - bits;
    uint64_t entry = counter_by_hand(table, 6, edit->index), host = edit->host_offset >> bits;
    uint64_t offset = entry & 0x00fffffffffffe00u, after = 0;
    int is_compressed = (entry >> 62 & 1) != 0, is_map = edit->kind == ZQ_EDIT_MAP;
    int has_cluster = !is_compressed && (offset != 0 || (header->incompatible_features == 4 && entry >> 63 == 1));
    lost->first = offset >> bits;
    lost->count = (uint64_t)has_cluster;
    if (is_compressed) {
        uint64_t begin = entry & ((UINT64_C(1) << offset_bits) - 1);
        uint64_t sectors = (entry & ((UINT64_C(1) << 62) - 1)) >> offset_bits;
        lost->first = begin >> bits;
        lost->count = (((begin >> 9) + sectors) >> (bits - 9)) - lost->first + 1;
    }
    int keeps = is_map ? lost->count == 1 && lost->first == host : edit->kind == ZQ_EDIT_ZERO_KEEP && has_cluster;
    if (is_map) {
        after = edit->host_offset | UINT64_C(1) << 63;
    } else if (edit->kind != ZQ_EDIT_DISCARD) {
        after = keeps ? entry | 1 : 1;
    }
    put(table, edit->index * 8, 8, after);
    lost->count = keeps ? 0 : lost->count;
    return is_map && !keeps;
}

enum { EDITS = 12 };

/* A number that is an entry: nothing, zeros, a cluster with or without zeros, or compressed data. */
static uint64_t drawn_entry(uint64_t *state, uint32_t bits) {
    uint64_t drawn = next_random(state) >> 32, cluster = drawn >> 8 & 7;
    switch (drawn & 3) {
        case 0: return cluster & 1;
        case 3: return UINT64_C(1) << 62 | (drawn >> 16 & 1) << (70 - bits) | cluster << bits | (drawn >> 20 & 0x1ff);
        default: return (drawn >> 16 & 1) << 63 | cluster << bits | (drawn & 1);
    }
}

/* Compares edits of a random table, and the changes of references, with the same by hand. */
static void check_drawn_table(uint64_t row, uint64_t *state) {
    static uint8_t bytes[1 << 16], expected[1 << 16];
    zq_header header = {3, 9, 4, 0, 0, 0, 0, 0, 0, 0, 0, 0, 0, 0, {0, 0}, {0, 0}, {0, 0}};
    header.cluster_bits = row % 9 ? 9 : 16;
    header.incompatible_features = row % 4 ? 0 : 4;
    size_t size = (size_t)1 << header.cluster_bits, losses = 0, wins = 0, freed_count, gained_count, bad;
    zq_edit edits[EDITS];
    zq_clusters freed[EDITS], lost[EDITS + 1];
    uint64_t gained[EDITS], won[EDITS + 1];
    for (size_t i = 0; i < size / 8; i++) {
        put(bytes, 8 * i, 8, drawn_entry(state, header.cluster_bits));
    }
    memcpy(expected, bytes, size);
    for (size_t i = 0; i < EDITS; i++) {
        uint64_t drawn = next_random(state) >> 32;
        edits[i].kind = 1 + (uint32_t)(drawn & 3);
        edits[i].reserved = (uint32_t)drawn;
        edits[i].index = (drawn >> 8) % (i % 2 ? 8 : size / 8);
        edits[i].host_offset = edits[i].kind == ZQ_EDIT_MAP ? (1 + (drawn >> 24 & 3)) << header.cluster_bits : drawn;
        won[wins] = edits[i].host_offset >> header.cluster_bits;
        wins += (size_t)edit_by_hand(expected, &header, &edits[i], &lost[losses]);
        losses += lost[losses].count != 0;
    }
    uint8_t *given = (uint8_t *)(uintptr_t)guarded(bytes, size);
    uint32_t fault =
        zq_l2_edit(given, size, &header, edits, EDITS, freed, losses, &freed_count, gained, wins, &gained_count, &bad);
    expect("zq_l2_edit of table", row, fault, ZQ_OK);
    expect("edited table", row, (uint64_t)memcmp(given, expected, size), 0);
    expect("ranges freed by table", row, freed_count, losses);
    expect("clusters gained by table", row, gained_count, wins);
    expect("freed by table", row, (uint64_t)memcmp(freed, lost, losses * sizeof *lost), 0);
    expect("gained by table", row, (uint64_t)memcmp(gained, won, wins * sizeof *won), 0);
}

static void check_drawn_tables(void) {
    uint64_t state = 7;
    for (uint64_t row = 0; row < 4000; row++) {
        check_drawn_table(row, &state);
    }
}

/* With a header: the bytes of a table of which one number is not 0, an edit, and the fault. Then the index of the bad
 * entry or edit, and the number of needed elements. UINT64_MAX stands for a result that the call didn't write. */
static const struct {
    uint32_t version, bits;
    size_t length, place;
    uint64_t number;
    zq_edit edit;
    size_t room;
    uint32_t fault;
    size_t bad, freed, gained;
} refused_edits[] = {
    {2, 8, 7, 0, 0, {2, 0, 0, 0}, 0, ZQ_VERSION_NEEDED, SIZE_MAX, SIZE_MAX, SIZE_MAX},
    {2, 9, 512, 0, 2, {3, 0, 0, 0}, 1, ZQ_VERSION_NEEDED, SIZE_MAX, SIZE_MAX, SIZE_MAX},
    {3, 8, 512, 0, 2, {2, 0, 0, 0}, 1, ZQ_CLUSTER_SIZE, SIZE_MAX, SIZE_MAX, SIZE_MAX},
    {3, 9, 504, 0, 2, {2, 0, 0, 0}, 1, ZQ_WRONG_LENGTH, SIZE_MAX, SIZE_MAX, SIZE_MAX},
    {3, 9, 1024, 0, 2, {2, 0, 0, 0}, 1, ZQ_WRONG_LENGTH, SIZE_MAX, SIZE_MAX, SIZE_MAX},
    {3, 9, 512, 504, 2, {9, 0, 0, 0}, 1, ZQ_ENTRY_RESERVED, 63, SIZE_MAX, SIZE_MAX},
    {3, 16, 1 << 16, 16, 512, {2, 0, 0, 0}, 0, ZQ_ENTRY_UNALIGNED, 2, SIZE_MAX, SIZE_MAX},
    {3, 9, 512, 0, 1024, {0, 0, 0, 0}, 0, ZQ_BAD_EDIT, 0, SIZE_MAX, SIZE_MAX},
    {3, 9, 512, 0, 1024, {5, 0, 0, 0}, 1, ZQ_BAD_EDIT, 0, SIZE_MAX, SIZE_MAX},
    {3, 9, 512, 0, 1024, {4, 0, 64, 0}, 1, ZQ_BAD_EDIT, 0, SIZE_MAX, SIZE_MAX},
    {3, 9, 512, 0, 1024, {4, 0, UINT64_MAX, 0}, 1, ZQ_BAD_EDIT, 0, SIZE_MAX, SIZE_MAX},
    {3, 9, 512, 0, 1024, {1, 0, 0, 0x500}, 1, ZQ_BAD_EDIT, 0, SIZE_MAX, SIZE_MAX},
    {3, 9, 512, 0, 1024, {1, 0, 0, 0}, 1, ZQ_BAD_EDIT, 0, SIZE_MAX, SIZE_MAX},
    {3, 9, 512, 0, 1024, {1, 0, 0, UINT64_C(1) << 56}, 1, ZQ_BAD_EDIT, 0, SIZE_MAX, SIZE_MAX},
    {3, 9, 512, 0, 1024, {1, 0, 0, 1536}, 0, ZQ_WRONG_LENGTH, SIZE_MAX, 1, 1},
    {2, 9, 512, 0, 1024, {4, 0, 0, 0}, 0, ZQ_WRONG_LENGTH, SIZE_MAX, 1, 0},
};

static void check_refused_edits(void) {
    static uint8_t bytes[1 << 16];
    for (size_t i = 0; i < sizeof refused_edits / sizeof *refused_edits; i++) {
        zq_header header = {refused_edits[i].version, refused_edits[i].bits, 4, 0, 0, 0, 0, 0, 0, 0, 0, 0, 0, 0, {0, 0}, {0, 0}, {0, 0}};
        size_t length = refused_edits[i].length, room = refused_edits[i].room;
        size_t freed_count = SIZE_MAX, gained_count = SIZE_MAX, bad = SIZE_MAX;
        zq_clusters freed;
        uint64_t gained;
        FILL(freed);
        FILL(gained);
        memset(bytes, 0, sizeof bytes);
        put(bytes, refused_edits[i].place, 8, refused_edits[i].number);
        uint8_t *given = (uint8_t *)(uintptr_t)guarded(bytes, length);
        expect("zq_l2_edit of refused row", i,
               zq_l2_edit(given, length, &header, &refused_edits[i].edit, 1, room ? &freed : NULL, room, &freed_count,
                          room ? &gained : NULL, room, &gained_count, &bad),
               refused_edits[i].fault);
        expect("table of row", i, (uint64_t)memcmp(given, bytes, length), 0);
        expect("bad of row", i, bad, refused_edits[i].bad);
        expect("ranges that row frees", i, freed_count, refused_edits[i].freed);
        expect("clusters that row gains", i, gained_count, refused_edits[i].gained);
        EXPECT_UNTOUCHED("freed of row", i, freed);
        EXPECT_UNTOUCHED("gained of row", i, gained);
    }
}

/* Edits of images with features: those of marked ones are refused, before a table of another length. */
static void check_marked_edits(void) {
    static const zq_edit edit = {ZQ_EDIT_ZERO, 0, 0, 0};
    for (uint64_t features = 0; features < 32; features++) {
        zq_header header = {3, 9, 4, 0, 0, 0, 0, 0, 0, 0, 0, 0, 0, 0, {0, 0}, {0, 0}, {0, 0}};
        uint8_t table[512] = {0};
        size_t freed_count, gained_count, bad;
        header.incompatible_features = features;
        uint32_t fault = features >= 16 ? ZQ_INCOMPATIBLE : features & 3 ? ZQ_MARKED : ZQ_OK;
        expect("zq_l2_edit with features", features,
               zq_l2_edit(table, 512, &header, &edit, 1, NULL, 0, &freed_count, NULL, 0, &gained_count, &bad), fault);
        expect("entry with features", features, table[7], fault == ZQ_OK);
        expect("zq_l2_edit of no byte with features", features,
               zq_l2_edit(NULL, 0, &header, &edit, 1, NULL, 0, &freed_count, NULL, 0, &gained_count, &bad),
               fault == ZQ_OK ? (uint32_t)ZQ_WRONG_LENGTH : fault);
    }
}

/* Edits one table. After a fault prints its number, and whether anything has changed. */
static int edit_once(void) {
    static const zq_edit edits[] = {{ZQ_EDIT_DISCARD, 0, 0, 0}, {ZQ_EDIT_MAP, 0, 1, 1536}};
    zq_header header = {3, 9, 4, 0, 0, 0, 0, 0, 0, 0, 0, 0, 0, 0, {0, 0}, {0, 0}, {0, 0}};
    uint8_t table[512] = {0, 0, 0, 0, 0, 0, 4, 0}, before[512];
    zq_clusters freed;
    uint64_t gained;
    size_t freed_count, gained_count, bad;
    FILL(freed);
    FILL(gained);
    memcpy(before, table, sizeof table);
    uint32_t fault = zq_l2_edit(table, sizeof table, &header, edits, 2, &freed, 1, &freed_count, &gained, 1, &gained_count, &bad);
    if (fault != ZQ_OK) {
        fprintf(stderr, "edit: fault %u\n", (unsigned)fault);
        expect("changed bytes after fault", fault, memcmp(table, before, sizeof table) != 0, 0);
        EXPECT_UNTOUCHED("freed after fault", fault, freed);
        EXPECT_UNTOUCHED("gained after fault", fault, gained);
    }
    return fault != ZQ_OK;
}

enum { TOGETHER = 3 };

static void print_extent(const zq_extent *extent) {
    static const char *const kinds[] = {"backing", "data", "zero", "zero", "compressed"};
    unsigned long long start = extent->guest_offset, length = extent->length, offset = extent->offset;
    printf("0x%llx 0x%llx %s", start, length, kinds[extent->kind]);
    if (extent->kind == ZQ_DATA || extent->kind == ZQ_ZERO_ALLOCATED) {
        printf(" 0x%llx", offset);
    }
    printf("\n");
}

/* Prints the extents of a whole disk, a few by each call, in the form of qmeta map. */
static uint32_t print_map(const uint8_t *bytes, size_t length) {
    zq_extent extents[TOGETHER];
    uint64_t from = 0;
    size_t count = TOGETHER;
    uint32_t fault = ZQ_OK;
    while (fault == ZQ_OK && count == TOGETHER) {
        fault = zq_image_extents(bytes, length, from, extents, TOGETHER, &count);
        for (size_t i = 0; i < count; i++) {
            print_extent(&extents[i]);
            from = extents[i].guest_offset + extents[i].length;
        }
    }
    return fault;
}

/* Prints the mappings of the first clusters of a disk. */
static uint32_t print_lookups(const uint8_t *bytes, size_t length) {
    uint32_t fault = ZQ_OK;
    for (uint64_t offset = 0; fault == ZQ_OK && offset < 1 << 18; offset += 1 << 16) {
        zq_mapping mapping;
        fault = zq_image_lookup(bytes, length, offset, &mapping);
        if (fault == ZQ_OK) {
            printf("%u %u 0x%llx %llu\n", (unsigned)mapping.kind, (unsigned)mapping.copied, (unsigned long long)mapping.offset,
                   (unsigned long long)mapping.length);
        }
    }
    return fault;
}

static void print_finding(const char *kind, const zq_finding *finding) {
    unsigned long long cluster = finding->cluster, counter = finding->counter, uses = finding->uses;
    printf("%s %llu 1 %llu %llu\n", kind, cluster, counter, uses);
}

/* Prints the findings of an image and their totals, in the form of qmeta check, except the lines of flags. */
static uint32_t print_check(const uint8_t *bytes, size_t length) {
    static zq_finding findings[4096];
    zq_check_totals totals;
    size_t count;
    zq_header header;
    uint32_t fault = zq_image_check(bytes, length, findings, sizeof findings / sizeof *findings, &count, &totals);
    if (fault == ZQ_OK) {
        fault = zq_header_read(bytes, length, &header);
    }
    if (fault != ZQ_OK) {
        return fault;
    }
    for (size_t i = 0; i < count; i++) {
        static const char *const kinds[] = {"leaked", "missing", "shared"};
        for (uint32_t kind = 0; kind < 3; kind++) {
            if (findings[i].kinds >> kind & 1) {
                print_finding(kinds[kind], &findings[i]);
            }
        }
    }
    unsigned long long leaked = totals.leaked, missing = totals.missing, shared = totals.shared;
    unsigned long long false_flags = totals.false_flags, late_flags = totals.late_flags;
    int is_corrupt = (header.incompatible_features & ZQ_CORRUPT) != 0;
    printf("%s%s", header.incompatible_features & ZQ_DIRTY ? "dirty\n" : "", is_corrupt ? "corrupt\n" : "");
    if (!is_corrupt && totals.findings + false_flags + late_flags == 0) {
        printf("consistent\n");
    } else {
        printf("leaked %llu missing %llu shared %llu false %llu late %llu\n", leaked, missing, shared, false_flags, late_flags);
    }
    return ZQ_OK;
}

/* Runs a function that prints the bytes of a file in some form, and prints its fault. Returns the program's status. */
static int print_file(const char *name, uint32_t (*print)(const uint8_t *, size_t)) {
    struct stat status;
    int file = open(name, O_RDONLY);
    size_t length = file >= 0 && fstat(file, &status) == 0 ? (size_t)status.st_size : 0;
    void *bytes = length > 0 ? mmap(NULL, length, PROT_READ, MAP_PRIVATE, file, 0) : MAP_FAILED;
    if (bytes == MAP_FAILED) {
        fprintf(stderr, "can't read the image\n");
        return 2;
    }
    setvbuf(stdout, NULL, _IONBF, 0); /* takes no memory */
    uint32_t fault = print((const uint8_t *)bytes, length);
    if (fault != ZQ_OK) {
        fprintf(stderr, "fault %u\n", (unsigned)fault);
    }
    return fault != ZQ_OK;
}

/* The extents that numbers in an L2 table join to, read by hand, and how many there are. */
static size_t join_by_hand(const uint64_t *numbers, size_t entries, const zq_header *header, uint64_t first, zq_extent *extents) {
    uint64_t size = UINT64_C(1) << header->cluster_bits;
    size_t count = 0;
    for (size_t i = 0; i < entries; i++) {
        zq_mapping mapping;
        read_by_hand(numbers[i], header, &mapping);
        uint64_t guest_offset = first + i * size, offset = mapping.kind == ZQ_BACKING ? guest_offset : mapping.offset;
        int has_cluster = mapping.kind == ZQ_DATA || mapping.kind == ZQ_ZERO_ALLOCATED;
        zq_extent *last = extents + (count ? count - 1 : 0);
        if (count && last->kind == mapping.kind && (!has_cluster || offset == last->offset + last->length)) {
            last->length += size;
        } else {
            extents[count++] = (zq_extent){mapping.kind, 0, guest_offset, size, offset};
        }
    }
    return count;
}

/* A number of an L2 table that often continues the one before. */
static uint64_t next_entry(uint64_t before, uint32_t bits, uint64_t *state) {
    uint64_t drawn = next_random(state) >> 32, cluster = (next_random(state) >> 40) << bits, flag = drawn >> 8 << 63;
    switch (drawn % 32) {
        case 0: return 0;
        case 1: return flag | 1;
        case 2: return flag;
        case 3: return UINT64_C(1) << 62 | cluster >> 3;
        case 4: return flag | cluster;
        case 5: return flag | cluster | 1;
        case 6: return before;
        default: break;
    }
    int has_offset = !(before >> 62 & 1) && (before & UINT64_C(0xfffffffffffe00)) != 0;
    return has_offset ? (flag | (before & ~(UINT64_C(1) << 63))) + (UINT64_C(1) << bits) : before;
}

enum { MOST_ENTRIES = ROOM / 8 };

/* All extents of the bytes, by calls that have room for a few each. */
static void check_going_on(const uint8_t *bytes, size_t length, const zq_header *header, uint64_t first,
                           const zq_extent *expected, size_t extents, size_t capacity) {
    zq_extent found[7];
    for (size_t done = 0, count = 0; done < extents; done += count) {
        expect("zq_l2_extents that goes on", done, zq_l2_extents(bytes, length, header, first, found, capacity, &count), ZQ_OK);
        expect("extents that go on", done, count, extents - done < capacity ? extents - done : capacity);
        expect("extents", done, (uint64_t)memcmp(found, expected + done, count * sizeof *found), 0);
        uint64_t next = found[count - 1].guest_offset + found[count - 1].length;
        size_t passed = (size_t)((next - first) >> header->cluster_bits) * 8;
        bytes += passed;
        length -= passed;
        first = next;
    }
    expect("bytes that are left", extents, length, 0);
}

/* Tables of all cluster sizes, and parts of them. */
static void check_extents(void) {
    static uint64_t numbers[MOST_ENTRIES];
    static uint8_t bytes[ROOM];
    static zq_extent expected[MOST_ENTRIES], found[MOST_ENTRIES];
    uint64_t state = 7;
    for (uint64_t i = 0; i < 400; i++) {
        zq_header header;
        FILL(header);
        header.cluster_bits = 9 + (uint32_t)(i % 13);
        header.incompatible_features = i % 2 * 4;
        size_t whole = (size_t)1 << (header.cluster_bits - 3), most = whole < MOST_ENTRIES ? whole : (size_t)MOST_ENTRIES;
        size_t entries = i % 3 ? (size_t)(next_random(&state) >> 32) % (most + 1) : most, count = 0;
        uint64_t first = (next_random(&state) >> 34) << header.cluster_bits, number = 0;
        for (size_t k = 0; k < entries; k++) {
            number = next_entry(number, header.cluster_bits, &state);
            numbers[k] = number;
            put(bytes, 8 * k, 8, number);
        }
        size_t extents = join_by_hand(numbers, entries, &header, first, expected);
        size_t capacity = i % 5 ? extents : (size_t)(next_random(&state) >> 32) % (extents + 1);
        const uint8_t *given = guarded(bytes, 8 * entries);
        memset(found, 0xa5, sizeof found);
        expect("zq_l2_extents of table", i, zq_l2_extents(given, 8 * entries, &header, first, found, capacity, &count), ZQ_OK);
        expect("extents of table", i, count, capacity);
        expect("extents of table", i, (uint64_t)memcmp(found, expected, capacity * sizeof *found), 0);
        expect("places after extents of table", i, (uint64_t)is_untouched(found + capacity, (MOST_ENTRIES - capacity) * sizeof *found), 1);
        check_going_on(given, 8 * entries, &header, first, expected, extents, 1 + (size_t)i % 7);
    }
}

/* Invalid parts of a table: the length, the offset, an entry's number, and the fault. Clusters have 64 KiB. */
static const struct {
    size_t length;
    uint64_t first, number;
    uint32_t fault;
} no_parts[] = {
    {7, 0, 0, ZQ_WRONG_LENGTH}, {65543, 0, 0, ZQ_WRONG_LENGTH}, {65544, 0, 2, ZQ_WRONG_LENGTH},
    {65536, 1, 2, ZQ_WRONG_LENGTH}, {65536, UINT64_MAX, 2, ZQ_WRONG_LENGTH}, {0, UINT64_MAX, 0, ZQ_WRONG_LENGTH},
    {8, UINT64_MAX - 65535, 2, ZQ_WRONG_LENGTH}, {65536, UINT64_MAX - 536870911, 2, ZQ_WRONG_LENGTH},
    {65536, UINT64_MAX - 536936447, 2, ZQ_ENTRY_RESERVED}, {65536, 0, 0x200, ZQ_ENTRY_UNALIGNED},
};

static void check_no_parts(void) {
    static uint8_t bytes[65544];
    zq_header header;
    zq_extent found[2];
    size_t count = 1;
    FILL(header);
    header.cluster_bits = 16;
    header.incompatible_features = 0;
    for (size_t i = 0; i < sizeof no_parts / sizeof *no_parts; i++) {
        FILL(found);
        FILL(count);
        memset(bytes, 0, sizeof bytes);
        put(bytes, 65528, 8, no_parts[i].number);
        const uint8_t *given = guarded(bytes, no_parts[i].length);
        expect("zq_l2_extents of no part", i,
               zq_l2_extents(given, no_parts[i].length, &header, no_parts[i].first, found, 2, &count), no_parts[i].fault);
        EXPECT_UNTOUCHED("extents of no part", i, found);
        EXPECT_UNTOUCHED("count of no part", i, count);
    }
    expect("zq_l2_extents of NULL", 0, zq_l2_extents(NULL, 0, &header, 0, NULL, 0, &count), ZQ_OK);
    expect("count of NULL", 0, count, 0);
    expect("zq_l2_extents without room", 0, zq_l2_extents(guarded(bytes, 8), 8, &header, 0, NULL, 0, &count), ZQ_OK);
    expect("count without room", 0, count, 0);
}

int main(int count, char **words) {
    if (count == 2 && strcmp(words[1], "settle") == 0) {
        return settle_once();
    }
    if (count == 2 && strcmp(words[1], "edit") == 0) {
        return edit_once();
    }
    if (count == 3) {
        int is_map = strcmp(words[1], "map") == 0, is_check = strcmp(words[1], "check") == 0;
        return print_file(words[2], is_map ? print_map : is_check ? print_check : print_lookups);
    }
    check_lengths();
    check_longest();
    check_fields();
    check_all_fields();
    check_made_up();
    check_numbers();
    check_lookups();
    check_image_extents();
    check_checks();
    check_random_numbers();
    check_refcounts();
    check_refused_refcounts();
    check_settled_refcounts();
    check_refused_settles();
    check_drawn_tables();
    check_refused_edits();
    check_marked_edits();
    check_extents();
    check_no_parts();
    return failures != 0;
}
