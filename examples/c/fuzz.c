/* Calls each function of zaqulle.h with 200,000 buffers: random bytes, and headers, tables and images that were
 * changed at random. Compares the results with a plain reading of the same bytes. Buffers lie at the edge of
 * inaccessible pages. Ends after a minute at the latest. Usage: fuzz [COUNT [SEED]]. Prints each failure, up to
 * twenty, and then the numbers of buffers and failures. The status is 1 after a failure, and 2 if a word is no number. */
#define _DEFAULT_SOURCE
#include <inttypes.h>
#include <stdio.h>
#include <stdlib.h>
#include <string.h>
#include <sys/mman.h>
#include <time.h>

#include <zaqulle.h>

#include "numbers.h"

enum { PAGE = 65536, ROOM = 4 * PAGE, SECONDS = 60, MOST_SHOWN = 20 };

static uint64_t seed = 1, random_state, buffers, failures;

static void expect(const char *what, uint64_t found, uint64_t expected) {
    if (found == expected) {
        return;
    }
    failures++;
    if (failures <= MOST_SHOWN) {
        printf("buffer %" PRIu64 " of seed %" PRIu64 ": %s: found 0x%" PRIx64 ", expected 0x%" PRIx64 "\n", buffers, seed, what,
               found, expected);
    }
}

/* ---- Random numbers and bytes */

static uint64_t next_random(void) {
    random_state = random_state * UINT64_C(6364136223846793005) + UINT64_C(1442695040888963407);
    return random_state ^ random_state >> 29;
}

static uint64_t below(uint64_t limit) {
    return (next_random() >> 16) % limit;
}

/* Changes some bytes, often none. */
static void change(uint8_t *bytes, size_t length) {
    for (uint64_t left = below(2) * below(6); left > 0 && length > 0; left--) {
        bytes[below(length)] = (uint8_t)(below(2) ? next_random() >> 24 : UINT64_C(1) << below(8));
    }
}

/* Returns a number that is mostly a valid L1 or L2 entry, for an image of that many clusters. */
static uint64_t random_entry(uint32_t cluster_bits, uint64_t clusters) {
    uint64_t copied = below(2) << 63, offset = below(clusters) << cluster_bits, sectors = below(2) << (70 - cluster_bits);
    switch (below(12)) {
        case 0: case 1: return 0;
        case 2: return 1;
        case 3: return copied | offset | 1;
        case 4: return UINT64_C(1) << 62 | sectors | (offset + below(UINT64_C(1) << cluster_bits));
        case 5: return below(9) ? offset : next_random();
        case 6: return below(9) ? copied | offset : next_random() & next_random() & next_random();
        default: return copied | offset;
    }
}

/* ---- Buffers */

/* Returns writable room between inaccessible pages. */
static uint8_t *guarded_room(void) {
    uint8_t *pages = (uint8_t *)mmap(NULL, ROOM + 2 * PAGE, PROT_NONE, MAP_PRIVATE | MAP_ANONYMOUS, -1, 0);
    if (pages == (uint8_t *)MAP_FAILED || mprotect(pages + PAGE, ROOM, PROT_READ | PROT_WRITE) != 0) {
        perror("fuzz");
        exit(2);
    }
    return pages + PAGE;
}

/* Copies bytes to one of the edges of the room. */
static uint8_t *guarded(const uint8_t *bytes, size_t length) {
    static uint8_t *room;
    if (room == NULL) {
        room = guarded_room();
    }
    uint8_t *begin = below(4) ? room + ROOM - length : room;
    memcpy(begin, bytes, length);
    return begin;
}

static void put(uint8_t *bytes, size_t place, int size, uint64_t value) {
    for (int i = size - 1; i >= 0; i--, value >>= 8) {
        bytes[place + (size_t)i] = (uint8_t)value;
    }
}

static uint64_t get(const uint8_t *bytes, size_t place, int size) {
    uint64_t number = 0;
    for (int i = 0; i < size; i++) {
        number = number << 8 | bytes[place + (size_t)i];
    }
    return number;
}

/* FILL fills a result with a pattern, and EXPECT_UNTOUCHED expects that it still has it. */
#define FILL(result) memset(&(result), 0xa5, sizeof(result))
#define EXPECT_UNTOUCHED(what, result) \
    do { \
        uint8_t filled[sizeof(result)]; \
        memset(filled, 0xa5, sizeof filled); \
        expect(what, (uint64_t)(memcmp(filled, &(result), sizeof filled) != 0), 0); \
    } while (0)

/* ---- Headers */

/* Returns the fault of the first 104 bytes of an image: of its magic, version and cluster size. */
static uint32_t plain_first_fault(const uint8_t *bytes, size_t length) {
    if (length < 104) {
        return ZQ_WRONG_LENGTH;
    }
    uint64_t version = get(bytes, 4, 4), bits = get(bytes, 20, 4);
    return get(bytes, 0, 4) != 0x514649fb     ? ZQ_NOT_QCOW2
           : version != 2 && version != 3     ? ZQ_VERSION
           : bits < 9 || bits > 21            ? ZQ_CLUSTER_SIZE
                                              : ZQ_OK;
}

/* Returns the fault of the other fixed fields of a header, which are tested before its names. */
static uint32_t plain_field_fault(const uint8_t *bytes, size_t length) {
    uint64_t size = UINT64_C(1) << get(bytes, 20, 4);
    int is_new = get(bytes, 4, 4) == 3;
    return length < size                                  ? ZQ_WRONG_LENGTH
           : is_new && get(bytes, 100, 4) < 104           ? ZQ_HEADER_SHORT
           : is_new && get(bytes, 100, 4) > size          ? ZQ_HEADER_BIG
           : get(bytes, 40, 8) % size != 0                ? ZQ_L1_UNALIGNED
           : get(bytes, 48, 8) % size != 0                ? ZQ_REFTABLE_UNALIGNED
           : is_new && get(bytes, 96, 4) > 6              ? ZQ_REFCOUNT_WIDTH
           : get(bytes, 8, 8) && get(bytes, 16, 4) > 1023 ? ZQ_BACKING_NAME_LONG
                                                          : ZQ_OK;
}

static void expect_name(const zq_header *header, zq_name name) {
    uint64_t end = (uint64_t)name.offset + name.length;
    expect("a name past the cluster", end > UINT64_C(1) << header->cluster_bits, 0);
    expect("a length without a name", name.offset == 0 && name.length != 0, 0);
}

static void expect_fields(const uint8_t *bytes, const zq_header *header) {
    int is_new = header->version == 3;
    expect("version", header->version, get(bytes, 4, 4));
    expect("cluster_bits", header->cluster_bits, get(bytes, 20, 4));
    expect("refcount_order", header->refcount_order, is_new ? get(bytes, 96, 4) : 4);
    expect("crypt_method", header->crypt_method, get(bytes, 32, 4));
    expect("size", header->size, get(bytes, 24, 8));
    expect("l1_offset", header->l1_offset, get(bytes, 40, 8));
    expect("reftable_offset", header->reftable_offset, get(bytes, 48, 8));
    expect("l1_entries", header->l1_entries, get(bytes, 36, 4));
    expect("reftable_clusters", header->reftable_clusters, get(bytes, 56, 4));
    expect("incompatible_features", header->incompatible_features, is_new ? get(bytes, 72, 8) : 0);
    expect("compatible_features", header->compatible_features, is_new ? get(bytes, 80, 8) : 0);
    expect("autoclear_features", header->autoclear_features, is_new ? get(bytes, 88, 8) : 0);
    expect("snapshots_offset", header->snapshots_offset, get(bytes, 64, 8));
    expect("snapshots", header->snapshots, get(bytes, 60, 4));
    expect("backing_name.offset", header->backing_name.offset, get(bytes, 8, 8));
    expect_name(header, header->backing_name);
    expect_name(header, header->backing_format);
    expect_name(header, header->data_file);
}

/* Makes the first cluster of an image of 16 clusters of 512 bytes, with a backing file. */
static void make_header(uint8_t *bytes) {
    memset(bytes, 0, 512);
    memcpy(bytes, "QFI\xfb", 4);
    put(bytes, 4, 4, below(4) ? 3 : 2);
    put(bytes, 8, 8, below(2) * 508);
    put(bytes, 16, 4, 4);
    put(bytes, 20, 4, 9);
    put(bytes, 24, 8, below(3 * 64 * 512));
    put(bytes, 36, 4, 3);
    put(bytes, 40, 8, 0x200);
    put(bytes, 48, 8, 0x800);
    put(bytes, 56, 4, 1);
    put(bytes, 72, 8, below(4) ? 0 : 4);
    put(bytes, 96, 4, below(7));
    put(bytes, 100, 4, 104);
    memcpy(bytes + 104, "\xe2\x79\x2a\xca\0\0\0\003raw\0\0\0\0\0DATA\0\0\0\002ab", 26);
    memcpy(bytes + 508, "base", 4);
}

static void fuzz_header(void) {
    uint8_t bytes[1024];
    size_t length = below(8) ? 512 + 512 * below(2) : below(1024), size;
    zq_header header;
    memset(bytes, 0, sizeof bytes);
    make_header(bytes);
    for (uint64_t left = below(9) ? 0 : length; left > 0; left--) {
        bytes[left - 1] = (uint8_t)(next_random() >> 24);
    }
    change(bytes, below(2) ? 136 : 512);
    FILL(size);
    FILL(header);
    uint8_t *passed = guarded(bytes, length);
    uint32_t plain = plain_first_fault(bytes, length), found = zq_header_bytes(passed, length, &size);
    expect("zq_header_bytes", found, plain);
    if (plain != ZQ_OK) {
        EXPECT_UNTOUCHED("the size after a fault", size);
    } else {
        expect("the size", size, UINT64_C(1) << get(bytes, 20, 4));
        plain = plain_field_fault(bytes, length);
    }
    found = zq_header_read(passed, length, &header);
    if (plain != ZQ_OK || found < ZQ_BACKING_NAME_PLACE || found > ZQ_INCOMPATIBLE) {
        expect("zq_header_read", found, plain);
    }
    if (found != ZQ_OK) {
        EXPECT_UNTOUCHED("the header after a fault", header);
    } else {
        expect_fields(bytes, &header);
    }
    expect("the bytes of a header, which stay", (uint64_t)memcmp(bytes, passed, length), 0);
}

/* ---- Table entries */

/* Decodes the L2 entry of the guest cluster at an offset. */
static uint32_t plain_l2(uint64_t number, const zq_header *header, uint64_t guest_begin, zq_mapping *mapping) {
    uint32_t bits = header->cluster_bits;
    uint64_t size = UINT64_C(1) << bits, offset = number & UINT64_C(0xfffffffffffe00), copied = number >> 63;
    if (number >> 62 & 1) {
        uint64_t sectors = (number >> (70 - bits)) % (UINT64_C(1) << (bits - 8)) + 1;
        offset = number % (UINT64_C(1) << (70 - bits));
        *mapping = (zq_mapping){ZQ_COMPRESSED, 0, offset, sectors * 512 - offset % 512};
        return copied || offset >> 56 ? ZQ_ENTRY_RESERVED : ZQ_OK;
    }
    int has_cluster = offset != 0 || (copied && header->incompatible_features == 4);
    uint32_t kind = has_cluster ? (number & 1 ? ZQ_ZERO_ALLOCATED : ZQ_DATA) : (number & 1 ? ZQ_ZERO : ZQ_BACKING);
    uint64_t place = kind == ZQ_BACKING ? guest_begin : offset;
    *mapping = (zq_mapping){kind, has_cluster ? (uint32_t)copied : 0, place, kind == ZQ_ZERO ? 0 : size};
    return number & UINT64_C(0x3f000000000001fe) ? ZQ_ENTRY_RESERVED : offset % size ? ZQ_ENTRY_UNALIGNED : ZQ_OK;
}

static uint32_t plain_l1(uint64_t number, const zq_header *header) {
    uint64_t offset = number & UINT64_C(0xfffffffffffe00), size = UINT64_C(1) << header->cluster_bits;
    return number & UINT64_C(0x7f000000000001ff) ? ZQ_ENTRY_RESERVED : offset % size ? ZQ_ENTRY_UNALIGNED : ZQ_OK;
}

/* Returns the fault of the first invalid entry in a table, and stores its index. */
static uint32_t plain_l2_check(const uint8_t *bytes, size_t count, const zq_header *header, size_t *index) {
    zq_mapping mapping;
    uint32_t fault = ZQ_OK;
    for (*index = 0; *index < count; ++*index) {
        fault = plain_l2(get(bytes, 8 * *index, 8), header, 0, &mapping);
        if (fault != ZQ_OK) {
            break;
        }
    }
    return fault;
}

static zq_header made_up_header(uint32_t cluster_bits) {
    zq_header header;
    FILL(header);
    header.cluster_bits = cluster_bits;
    header.incompatible_features = below(4) ? 0 : 4;
    return header;
}

static void expect_mapping(const char *what, const zq_mapping *found, const zq_mapping *expected) {
    expect(what, found->kind, expected->kind);
    expect("its flag", found->copied, expected->copied);
    expect("its offset", found->offset, expected->offset);
    expect("its length", found->length, expected->length);
}

/* Whether an extent continues another one. */
static int goes_on(const zq_extent *next, const zq_extent *last) {
    int has_place = next->kind == ZQ_DATA || next->kind == ZQ_ZERO_ALLOCATED;
    return next->kind == last->kind && (!has_place || next->offset == last->offset + last->length);
}

/* Expects that an extent has a mapping's content at guest_offset, which lies in_cluster bytes into the mapped cluster. */
static void expect_in_extent(const zq_extent *extent, uint64_t guest_offset, const zq_mapping *mapping, uint64_t in_cluster) {
    int has_place = mapping->kind == ZQ_DATA || mapping->kind == ZQ_ZERO_ALLOCATED || mapping->kind == ZQ_BACKING;
    expect("the kind of an extent", extent->kind, mapping->kind);
    if (has_place) {
        expect("the offset of an extent", extent->offset + (guest_offset - extent->guest_offset), mapping->offset + in_cluster);
    } else if (mapping->kind == ZQ_ZERO) {
        expect("the offset of zeros", extent->offset, 0);
    }
}

static void fuzz_number(const zq_header *header, uint64_t number) {
    uint64_t guest_offset = next_random(), l2_offset;
    uint32_t copied;
    zq_mapping found, expected;
    FILL(l2_offset);
    FILL(copied);
    FILL(found);
    uint32_t fault = plain_l1(number, header);
    expect("zq_l1_entry", zq_l1_entry(number, header, &l2_offset, &copied), fault);
    if (fault != ZQ_OK) {
        EXPECT_UNTOUCHED("the offset after a fault", l2_offset);
        EXPECT_UNTOUCHED("the flag after a fault", copied);
    } else {
        expect("the offset of an L2 table", l2_offset, number & UINT64_C(0xfffffffffffe00));
        expect("the flag of an L2 table", copied, number >> 63);
    }
    fault = plain_l2(number, header, guest_offset >> header->cluster_bits << header->cluster_bits, &expected);
    expect("zq_l2_entry", zq_l2_entry(number, header, guest_offset, &found), fault);
    if (fault != ZQ_OK) {
        EXPECT_UNTOUCHED("the mapping after a fault", found);
    } else {
        expect_mapping("the kind of a mapping", &found, &expected);
    }
}

/* Makes a table or a part of one, for clusters of 512 bytes to 2 MiB. */
static size_t make_table(uint8_t *bytes, uint32_t cluster_bits) {
    size_t count = below(65), length = 8 * count + (below(16) ? 0 : below(8));
    uint64_t run = 0;
    for (size_t i = 0; i < 65; i++) {
        run = below(3) && i > 0 && run >> 62 != 1 && run > 1 ? run + (UINT64_C(1) << cluster_bits) : random_entry(cluster_bits, 64);
        put(bytes, 8 * i, 8, run);
    }
    change(bytes, below(4) ? 0 : length);
    return length;
}

/* Compares the extents of entries from a guest offset on with their mappings, at a random capacity. */
static void fuzz_extents(const uint8_t *bytes, size_t length, const zq_header *header) {
    zq_extent extents[64];
    size_t capacity = below(4) ? 64 : below(8), count, index, size = (size_t)1 << header->cluster_bits;
    uint64_t first = below(8) ? below(8) * size : next_random(), at = first, ranges = length / 8 * size;
    int is_part = length % 8 == 0 && length <= size && first % size == 0 && first <= UINT64_MAX - ranges;
    uint32_t fault = is_part ? plain_l2_check(bytes, length / 8, header, &index) : (uint32_t)ZQ_WRONG_LENGTH;
    FILL(extents);
    FILL(count);
    expect("zq_l2_extents", zq_l2_extents(bytes, length, header, first, extents, capacity, &count), fault);
    if (fault != ZQ_OK) {
        EXPECT_UNTOUCHED("the extents after a fault", extents);
        EXPECT_UNTOUCHED("their count after a fault", count);
        return;
    }
    for (size_t i = 0; i < count; i++) {
        expect("where an extent of a table begins", extents[i].guest_offset, at);
        expect("an extent that goes on", (uint64_t)(i > 0 && goes_on(&extents[i], &extents[i - 1])), 0);
        for (; at < extents[i].guest_offset + extents[i].length; at += size) {
            zq_mapping mapping;
            plain_l2(get(bytes, 8 * ((at - first) >> header->cluster_bits), 8), header, at, &mapping);
            expect_in_extent(&extents[i], at, &mapping, 0);
        }
    }
    expect("the end of the extents", count < capacity ? at : first + ranges, first + ranges);
}

static void fuzz_table(void) {
    uint8_t bytes[65 * 8];
    zq_header header = made_up_header(9 + (uint32_t)(below(2) * below(13)));
    size_t length = make_table(bytes, header.cluster_bits), found, expected = 0;
    uint8_t *passed = guarded(bytes, length);
    uint32_t fault = length % 8 != 0 ? (uint32_t)ZQ_WRONG_LENGTH : plain_l2_check(bytes, length / 8, &header, &expected);
    FILL(found);
    expect("zq_l2_check", zq_l2_check(passed, length, &header, &found), fault);
    if (fault == ZQ_ENTRY_RESERVED || fault == ZQ_ENTRY_UNALIGNED) {
        expect("the index of a bad entry", found, expected);
    } else {
        EXPECT_UNTOUCHED("the index without a bad entry", found);
    }
    for (size_t i = 0; i < length / 8; i++) {
        fuzz_number(&header, get(bytes, 8 * i, 8));
    }
    fuzz_extents(passed, length, &header);
    header.cluster_bits = (uint32_t)(next_random() >> below(64));
    if (header.cluster_bits < 9 || header.cluster_bits > 21) {
        expect("zq_l2_check of bad cluster bits", zq_l2_check(passed, length, &header, &found), ZQ_CLUSTER_SIZE);
    }
    expect("the bytes of a table, which stay", (uint64_t)memcmp(bytes, passed, length), 0);
}

/* ---- Refcount blocks */

/* Returns refcount i of a block. In a byte the first one has the lowest bits; wider ones are big-endian. */
static uint64_t plain_counter(const uint8_t *block, uint32_t order, size_t i) {
    uint32_t width = UINT32_C(1) << order;
    return width >= 8 ? get(block, i * (width / 8), (int)(width / 8))
                      : (uint64_t)block[i * width / 8] >> (i * width % 8) & ((UINT64_C(1) << width) - 1);
}

/* The number of times that ranges, or a list, contain a cluster. */
static uint64_t times_in_ranges(const zq_clusters *ranges, size_t count, uint64_t cluster) {
    uint64_t times = 0;
    for (size_t i = 0; i < count; i++) {
        times += cluster >= ranges[i].first && cluster - ranges[i].first < ranges[i].count;
    }
    return times;
}

static uint64_t times_in_list(const uint64_t *list, size_t count, uint64_t cluster) {
    uint64_t times = 0;
    for (size_t i = 0; i < count; i++) {
        times += list[i] == cluster;
    }
    return times;
}

/* The number of entries in a table of 512 bytes that refer to a cluster. */
static uint64_t references(const uint8_t *table, const zq_header *header, uint64_t cluster) {
    uint64_t times = 0;
    for (size_t i = 0; i < 64; i++) {
        zq_mapping mapping;
        plain_l2(get(table, 8 * i, 8), header, 0, &mapping);
        int has_clusters = mapping.kind == ZQ_DATA || mapping.kind == ZQ_ZERO_ALLOCATED || mapping.kind == ZQ_COMPRESSED;
        times += has_clusters && mapping.offset >> 9 <= cluster && cluster <= (mapping.offset + mapping.length - 1) >> 9;
    }
    return times;
}

/* Expects that an edited entry has the content of its last edit: the kind, and for data the offset and the copied
 * flag. */
static void expect_edited(const uint8_t *table, const zq_header *header, const zq_edit *edit, uint32_t before) {
    zq_mapping mapping;
    plain_l2(get(table, 8 * edit->index, 8), header, 0, &mapping);
    int keeps = edit->kind == ZQ_EDIT_ZERO_KEEP && (before == ZQ_DATA || before == ZQ_ZERO_ALLOCATED);
    uint32_t kind = edit->kind == ZQ_EDIT_MAP ? ZQ_DATA : edit->kind == ZQ_EDIT_DISCARD ? ZQ_BACKING
                    : keeps ? ZQ_ZERO_ALLOCATED : ZQ_ZERO;
    expect("the kind after an edit", mapping.kind, kind);
    if (edit->kind == ZQ_EDIT_MAP) {
        expect("where data is mapped to", mapping.offset, edit->host_offset);
        expect("the flag of mapped data", mapping.copied, 1);
    }
}

/* Edits a table: references after plus those freed must equal references before plus those gained. After a fault
 * nothing may have changed. */
static void fuzz_edits(void) {
    uint8_t bytes[65 * 8];
    zq_header header = made_up_header(9);
    size_t edit_count = below(5), room = below(4) ? 4 : below(4), freed_count = 0, gained_count = 0, bad;
    zq_edit edits[4];
    zq_clusters freed[4];
    uint64_t gained[4];
    zq_mapping mapping;
    make_table(bytes, 9);
    header.version = below(8) ? 3 : 2;
    for (size_t i = 0; i < 4; i++) {
        edits[i].kind = below(32) ? 1 + (uint32_t)below(4) : (uint32_t)next_random();
        edits[i].reserved = (uint32_t)next_random();
        edits[i].index = below(64) ? below(64) : next_random() >> below(64);
        edits[i].host_offset = below(32) ? 512 * below(64) : next_random() >> below(64);
    }
    uint8_t *table = guarded(bytes, 512);
    FILL(freed);
    FILL(gained);
    uint32_t fault = zq_l2_edit(table, 512, &header, edits, edit_count, freed, room, &freed_count, gained, room, &gained_count, &bad);
    if (fault != ZQ_OK) {
        expect("the bytes of a table after a fault", (uint64_t)memcmp(bytes, table, 512), 0);
        EXPECT_UNTOUCHED("ranges after a fault", freed);
        EXPECT_UNTOUCHED("clusters after a fault", gained);
        int lacks_room = fault == ZQ_WRONG_LENGTH && (freed_count > room || gained_count > room);
        int is_expected = lacks_room || fault == ZQ_ENTRY_RESERVED || fault == ZQ_ENTRY_UNALIGNED || fault == ZQ_BAD_EDIT
                          || fault == ZQ_INCOMPATIBLE || (fault == ZQ_VERSION_NEEDED && header.version == 2);
        expect("the fault of edits", (uint64_t)is_expected, 1);
        return;
    }
    for (int i = 0; i < 4; i++) {
        uint64_t cluster = below(68);
        expect("references after edits",
               references(table, &header, cluster) + times_in_ranges(freed, freed_count, cluster),
               references(bytes, &header, cluster) + times_in_list(gained, gained_count, cluster));
    }
    if (edit_count == 1) {
        plain_l2(get(bytes, 8 * edits[0].index, 8), &header, 0, &mapping);
        expect_edited(table, &header, &edits[0], mapping.kind);
    }
}

static void fuzz_counters(const uint8_t *block, size_t length, uint32_t order) {
    uint64_t counters[32];
    size_t entries = order > 6 ? 0 : length * 8 >> order, count = below(33);
    size_t first = below(8) ? (entries > count ? below(entries - count + 1) : 0) : next_random() >> below(64);
    uint32_t fault = order > 6 ? ZQ_REFCOUNT_WIDTH : length < 512 || length > 1 << 21 || (length & (length - 1)) != 0 ? ZQ_WRONG_LENGTH
                     : first > entries || count > entries - first ? ZQ_BAD_STEP : ZQ_OK;
    FILL(counters);
    expect("zq_refcounts_read", zq_refcounts_read(block, length, order, first, counters, count), fault);
    if (fault != ZQ_OK) {
        EXPECT_UNTOUCHED("the counters after a fault", counters);
        return;
    }
    for (size_t i = 0; i < count; i++) {
        expect("a counter", counters[i], plain_counter(block, order, first + i));
    }
}

/* Updates refcounts after edits: each must be the old one plus gains minus losses, or all unchanged if one can't be. */
static void fuzz_settled(uint8_t *block, size_t length, uint32_t order) {
    uint8_t before[4096];
    zq_clusters freed[4];
    uint64_t gained[4], block_index = below(3), entries = length * 8 >> order, begin = block_index * entries;
    uint64_t most = order == 6 ? UINT64_MAX : (UINT64_C(1) << (UINT32_C(1) << order)) - 1;
    size_t freed_count = below(5), gained_count = below(5);
    uint32_t expected = ZQ_OK;
    memcpy(before, block, length);
    for (size_t i = 0; i < 4; i++) {
        freed[i].first = begin + below(2) * (entries - 1) + below(5) - (begin > 0) * below(3);
        freed[i].count = below(64) ? below(4) : next_random();
        gained[i] = below(2) ? freed[i].first : begin + below(entries + 2);
    }
    uint32_t fault = zq_refcounts_settle(block, length, order, block_index, freed, freed_count, gained, gained_count);
    for (uint64_t i = 0; i < entries; i++) {
        uint64_t counter = plain_counter(before, order, i), losses = times_in_ranges(freed, freed_count, begin + i);
        uint64_t gains = times_in_list(gained, gained_count, begin + i);
        int can_follow = gains <= most - counter && losses <= counter + gains;
        expected = can_follow ? expected : (uint32_t)ZQ_COUNTER_RANGE;
        expect("a settled counter", plain_counter(block, order, i), fault == ZQ_OK ? counter + gains - losses : counter);
    }
    expect("zq_refcounts_settle", fault, expected);
}

static void fuzz_block(void) {
    uint8_t block[4096];
    size_t length = (size_t)512 << (below(8) ? 0 : below(4));
    uint32_t order = (uint32_t)below(7);
    int kind = (int)below(3);
    for (size_t i = 0; i < length; i++) {
        block[i] = (uint8_t)(kind == 0 ? 0 : kind == 1 ? next_random() >> 24 : below(2) * 0xff);
    }
    uint8_t *passed = guarded(block, length);
    fuzz_counters(passed, below(8) ? length : below(length + 1), below(8) ? order : (uint32_t)next_random());
    expect("the bytes of a block, which stay", (uint64_t)memcmp(block, passed, length), 0);
    fuzz_settled(passed, length, order);
}

/* ---- Whole images */

/* Reads a number of eight bytes at an offset of an image. Past its end the image reads as zeros. */
static uint64_t number_in(const uint8_t *image, size_t length, uint64_t offset) {
    uint64_t number = 0;
    for (uint64_t i = 0; i < 8; i++) {
        number = number << 8 | (offset + i < length ? image[offset + i] : 0);
    }
    return number;
}

/* Finds the mapping of a guest offset's cluster in the tables of an image. */
static uint32_t plain_lookup(const uint8_t *image, size_t length, const zq_header *header, uint64_t offset, zq_mapping *mapping) {
    uint64_t bits = header->cluster_bits, index = offset >> (2 * bits - 3), entries = UINT64_C(1) << (bits - 3), table;
    uint32_t fault = header->l1_entries > 4194304 ? ZQ_TABLE_TOO_BIG
                     : header->l1_offset + 8 * (uint64_t)header->l1_entries > UINT64_C(1) << 56 ? ZQ_TABLE_PLACE : ZQ_OK;
    for (uint64_t i = 0; fault == ZQ_OK && i < header->l1_entries && header->l1_offset + 8 * i < length; i++) {
        fault = plain_l1(number_in(image, length, header->l1_offset + 8 * i), header);
    }
    table = index < header->l1_entries ? number_in(image, length, header->l1_offset + 8 * index) & UINT64_C(0xfffffffffffe00) : 0;
    for (uint64_t i = 0; fault == ZQ_OK && table != 0 && i < entries; i++) {
        fault = plain_l2(number_in(image, length, table + 8 * i), header, 0, mapping);
    }
    if (fault == ZQ_OK) {
        uint64_t number = table == 0 ? 0 : number_in(image, length, table + 8 * ((offset >> bits) % entries));
        plain_l2(number, header, offset >> bits << bits, mapping);
    }
    return fault;
}

/* Makes an image of 16 clusters: the header, the L1 table, two L2 tables, the refcount table, a block, and data. */
static size_t make_image(uint8_t *image) {
    memset(image, 0, 16 * 512);
    make_header(image);
    put(image, 0x200, 8, UINT64_C(1) << 63 | 0x400);
    put(image, 0x208, 8, below(4) ? UINT64_C(1) << 63 | 0x600 : 0);
    put(image, 0x210, 8, below(16) ? 0 : 0x400);
    for (size_t place = 0x400; place < 0x800; place += 8) {
        put(image, place, 8, below(3) ? get(image, place - (place == 0x400 ? 0 : 8), 8) : random_entry(9, 16));
    }
    put(image, 0x800, 8, 0xa00);
    for (size_t place = 0xa00; place < 0xc00; place++) {
        image[place] = (uint8_t)(below(2) * below(3));
    }
    change(image, below(2) ? 512 : 16 * 512);
    return below(4) ? 16 * 512 : below(16 * 512 + 1);
}

/* Reads the header of an image, and returns its fault. If the image is shorter than the cluster, zeros follow. */
static uint32_t read_header(const uint8_t *image, size_t length, zq_header *header) {
    static uint8_t cluster[1 << 21];
    size_t size = 1 << 21, kept = length < size ? length : size;
    memcpy(cluster, image, kept);
    uint32_t fault = zq_header_bytes(cluster, size, &size);
    fault = fault != ZQ_OK ? fault : zq_header_read(cluster, size, header);
    memset(cluster, 0, kept);
    return fault;
}

/* Compares the extents of an image's disk from an offset on with lookups, at a random capacity. */
static void fuzz_disk(const uint8_t *image, size_t length, const zq_header *header, uint32_t header_fault) {
    static zq_extent extents[256];
    size_t capacity = below(4) ? 256 : below(8), count;
    uint64_t at = below(8) ? below(2) * below(3 * 64 * 512) : next_random();
    uint32_t fault = zq_image_extents(image, length, at, extents, capacity, &count), cluster_fault = ZQ_OK;
    zq_mapping mapping;
    for (size_t i = 0; i < count; i++) {
        expect("where an extent of an image begins", extents[i].guest_offset, at);
        expect("an extent that goes on", (uint64_t)(i > 0 && goes_on(&extents[i], &extents[i - 1])), 0);
        uint64_t end = at + extents[i].length, size = UINT64_C(1) << header->cluster_bits;
        for (int left = 12; at < end && left > 0; at += size - at % size, left--) {
            expect("the fault of a cluster", plain_lookup(image, length, header, at, &mapping), ZQ_OK);
            expect_in_extent(&extents[i], at, &mapping, at % size);
        }
        at = end;
    }
    if (header_fault != ZQ_OK) {
        expect("zq_image_extents", fault, header_fault);
        return;
    }
    if (fault == ZQ_OK) {
        expect("the fault of an L1 table", plain_lookup(image, length, header, UINT64_MAX, &mapping), ZQ_OK);
        expect("the end of the extents of an image", (uint64_t)(count == capacity || at >= header->size), 1);
        return;
    }
    /* The fault must be that of the L1 table, or of the first L2 table from there on that has one. */
    uint64_t range = UINT64_C(1) << (2 * header->cluster_bits - 3);
    for (int left = 8; cluster_fault == ZQ_OK && left > 0; left--, at = (at / range + 1) * range) {
        cluster_fault = plain_lookup(image, length, header, at < header->size ? at : UINT64_MAX, &mapping);
    }
    expect("zq_image_extents", fault, cluster_fault);
}

/* Checks an image: findings must be in the order of clusters, and their kinds must match their numbers. */
static void fuzz_check(const uint8_t *image, size_t length) {
    zq_finding findings[16];
    zq_check_totals totals;
    size_t capacity = below(17), count;
    if (zq_image_check(image, length, findings, capacity, &count, &totals) != ZQ_OK) {
        return;
    }
    expect("the count of findings", count, totals.findings < capacity ? totals.findings : capacity);
    for (size_t i = 0; i < count; i++) {
        expect("the order of findings", (uint64_t)(i > 0 && findings[i].cluster <= findings[i - 1].cluster), 0);
        expect("a leaked cluster", findings[i].kinds & 1, findings[i].counter > findings[i].uses);
        expect("a missing cluster", findings[i].kinds >> 1 & 1, findings[i].counter < findings[i].uses);
        expect("a finding without a kind", findings[i].kinds == 0, 0);
    }
}

static void fuzz_image(void) {
    uint8_t image[16 * 512];
    size_t length = make_image(image);
    uint8_t *passed = guarded(image, length);
    zq_header header;
    uint32_t header_fault = read_header(image, length, &header);
    for (int left = 4; left > 0; left--) {
        uint64_t offset = below(8) ? below(4 * 64 * 512) : next_random();
        zq_mapping found, expected;
        FILL(found);
        uint32_t fault = header_fault != ZQ_OK ? header_fault : plain_lookup(image, length, &header, offset, &expected);
        expect("zq_image_lookup", zq_image_lookup(passed, length, offset, &found), fault);
        if (fault != ZQ_OK) {
            EXPECT_UNTOUCHED("the mapping of an image after a fault", found);
        } else {
            expect_mapping("the kind in an image", &found, &expected);
        }
    }
    fuzz_disk(passed, length, &header, header_fault);
    fuzz_check(passed, length);
    expect("the bytes of an image, which stay", (uint64_t)memcmp(image, passed, length), 0);
}

/* ---- The whole run */

int main(int count, char **words) {
    static void (*const parts[])(void) = {fuzz_header, fuzz_table, fuzz_edits, fuzz_block, fuzz_image};
    uint64_t most = 200000;
    time_t begin = time(NULL);
    if (count > 3 || (count > 1 && !read_number(words[1], &most)) || (count > 2 && !read_number(words[2], &seed))) {
        fprintf(stderr, "usage: fuzz [COUNT [SEED]], in decimal or hexadecimal after 0x\n");
        return 2;
    }
    random_state = seed;
    while (buffers < most && (buffers % 256 != 0 || time(NULL) - begin < SECONDS)) {
        parts[buffers % (sizeof parts / sizeof *parts)]();
        buffers++;
    }
    printf("%" PRIu64 " buffers, %" PRIu64 " failures\n", buffers, failures);
    return failures != 0;
}
