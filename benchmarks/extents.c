/* Times zq_l2_extents beside a loop in plain C that does the same, on tables in memory. scripts/build-c-library builds
 * the library. Then: cc -O2 -I include benchmarks/extents.c crates/qcow2_ffi/out/libzaqulle.a -o extents, and
 * ./extents. Prints a line for each table: its name, the number of its entries, the least time of 60 rounds in
 * microseconds here and in plain C, and their ratio. The status is 1 if the extents differ, and 2 after a fault or
 * without memory. */
#define _DEFAULT_SOURCE
#include <stdio.h>
#include <stdlib.h>
#include <string.h>
#include <time.h>

#include "zaqulle.h"

#define COPIED (UINT64_C(1) << 63)

static double now(void) {
    struct timespec time;
    clock_gettime(CLOCK_MONOTONIC, &time);
    return (double)time.tv_sec * 1e6 + (double)time.tv_nsec * 1e-3;
}

/* Gives the kind of an entry and the offset of its content. Returns the fault if the number is no entry. */
static uint32_t plain_entry(uint64_t number, uint32_t bits, int external, uint32_t *kind, uint64_t *offset) {
    if (number >> 62 & 1) {
        *kind = ZQ_COMPRESSED;
        *offset = number & ((UINT64_C(1) << (70 - bits)) - 1);
        return number >> 63 || *offset >> 56 ? ZQ_ENTRY_RESERVED : ZQ_OK;
    }
    *offset = number & UINT64_C(0xfffffffffffe00);
    int has_cluster = *offset != 0 || (number >> 63 && external);
    *kind = has_cluster ? (number & 1 ? ZQ_ZERO_ALLOCATED : ZQ_DATA) : (number & 1 ? ZQ_ZERO : ZQ_BACKING);
    if (number & UINT64_C(0x3f000000000001fe)) {
        return ZQ_ENTRY_RESERVED;
    }
    return *offset & ((UINT64_C(1) << bits) - 1) ? ZQ_ENTRY_UNALIGNED : ZQ_OK;
}

/* Does the same as zq_l2_extents, with enough room, and trusts its arguments. */
static uint32_t plain_extents(const uint8_t *bytes, size_t length, const zq_header *header, zq_extent *extents, size_t *count) {
    uint32_t bits = header->cluster_bits;
    uint64_t size = UINT64_C(1) << bits;
    size_t found = 0;
    for (size_t i = 0; i < length / 8; i++) {
        uint64_t number, offset;
        uint32_t kind;
        memcpy(&number, bytes + 8 * i, 8);
        uint32_t fault = plain_entry(__builtin_bswap64(number), bits, header->incompatible_features == 4, &kind, &offset);
        if (fault != ZQ_OK) {
            return fault;
        }
        int has_cluster = kind == ZQ_DATA || kind == ZQ_ZERO_ALLOCATED;
        zq_extent *last = extents + found - (found != 0);
        if (found != 0 && last->kind == kind && (!has_cluster || offset == last->offset + last->length)) {
            last->length += size;
        } else {
            extents[found++] = (zq_extent){kind, 0, i * size, size, kind == ZQ_BACKING ? i * size : offset};
        }
    }
    *count = found;
    return ZQ_OK;
}

static const char *const tables[] = {"in a row", "zeros", "compressed", "runs of 100", "runs of 8", "none goes on"};

static uint64_t number_of(size_t table, uint64_t i, uint32_t bits) {
    switch (table) {
        case 0: return COPIED | (i + 5) << bits;
        case 1: return 1;
        case 2: return UINT64_C(1) << 62 | i * 777;
        case 3: return COPIED | (i + i / 100 + 5) << bits;
        case 4: return COPIED | (i + i / 8 + 5) << bits;
        default: return COPIED | (i * 40503 % 65536 + 1) << bits;
    }
}

static int time_table(size_t table, uint32_t bits) {
    size_t entries = (size_t)1 << (bits - 3), length = 8 * entries, here = 0, plain = 0;
    uint8_t *bytes = malloc(length);
    zq_extent *found = malloc(entries * sizeof *found), *expected = malloc(entries * sizeof *expected);
    zq_header header = {.cluster_bits = bits};
    double least_here = 1e9, least_plain = 1e9;
    if (bytes == NULL || found == NULL || expected == NULL) {
        exit(2);
    }
    for (size_t i = 0; i < entries; i++) {
        uint64_t number = __builtin_bswap64(number_of(table, i, bits));
        memcpy(bytes + 8 * i, &number, 8);
    }
    for (int round = 0; round < 60; round++) {
        double start = now();
        uint32_t fault = zq_l2_extents(bytes, length, &header, 0, found, entries, &here);
        double middle = now();
        uint32_t plain_fault = plain_extents(bytes, length, &header, expected, &plain);
        double end = now();
        least_here = middle - start < least_here ? middle - start : least_here;
        least_plain = end - middle < least_plain ? end - middle : least_plain;
        if (fault != ZQ_OK || plain_fault != ZQ_OK) {
            exit(2);
        }
    }
    printf("%s, %zu: %.1f %.1f %.2f\n", tables[table], entries, least_here, least_plain, least_here / least_plain);
    int differ = here != plain || memcmp(found, expected, here * sizeof *found) != 0;
    free(bytes);
    free(found);
    free(expected);
    return differ;
}

int main(void) {
    int differ = 0;
    for (size_t table = 0; table < sizeof tables / sizeof *tables; table++) {
        differ |= time_table(table, 16);
        differ |= time_table(table, 21);
    }
    return differ;
}
