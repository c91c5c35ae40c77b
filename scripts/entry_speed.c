/* Reads a million entries of an L2 table in one of three ways, for check-c-library, which counts the instructions: by
 * zq_l2_entry, by a plain test, shift and mask, or by a function that decodes nothing. Usage: entry_speed
 * library|plain|nothing. Prints a sum of the mappings, which is the same by the first two. */
#include <inttypes.h>
#include <stdio.h>
#include <string.h>

#include "zaqulle.h"

enum { ENTRIES = 8192, ROUNDS = 128, CLUSTER_BITS = 16 };

typedef uint32_t reading(uint64_t entry, const zq_header *header, uint64_t guest_offset, zq_mapping *mapping);

static uint32_t no_entry(uint64_t entry, const zq_header *header, uint64_t guest_offset, zq_mapping *mapping) {
    (void)header, (void)guest_offset;
    mapping->offset = entry;
    return ZQ_OK;
}

/* The mapping of an entry, as a program decodes it by hand. */
static uint32_t plain_entry(uint64_t entry, const zq_header *header, uint64_t guest_offset, zq_mapping *mapping) {
    uint64_t size = UINT64_C(1) << header->cluster_bits, offset = entry & UINT64_C(0xfffffffffffe00);
    if (entry >> 62 & 1) {
        uint32_t bits = 70 - header->cluster_bits;
        uint64_t sectors = (entry >> bits & ((UINT64_C(1) << (header->cluster_bits - 8)) - 1)) + 1;
        offset = entry & ((UINT64_C(1) << bits) - 1);
        *mapping = (zq_mapping){ZQ_COMPRESSED, 0, offset, sectors * 512 - (offset & 511)};
        return entry >> 63 || offset >> 56 ? ZQ_ENTRY_RESERVED : ZQ_OK;
    }
    if (entry & UINT64_C(0x3f000000000001fe)) {
        return ZQ_ENTRY_RESERVED;
    }
    if (offset & (size - 1)) {
        return ZQ_ENTRY_UNALIGNED;
    }
    if (offset == 0) {
        uint32_t is_zero = entry & 1;
        *mapping = (zq_mapping){is_zero ? ZQ_ZERO : ZQ_BACKING, 0, is_zero ? 0 : guest_offset & ~(size - 1), is_zero ? 0 : size};
        return ZQ_OK;
    }
    *mapping = (zq_mapping){entry & 1 ? ZQ_ZERO_ALLOCATED : ZQ_DATA, (uint32_t)(entry >> 63), offset, size};
    return ZQ_OK;
}

static void fill(uint64_t *entries) {
    for (uint64_t i = 0; i < ENTRIES; i++) {
        uint64_t offset = (i + 5) << CLUSTER_BITS;
        entries[i] = i % 16 == 0   ? 0
                     : i % 16 == 1 ? 1
                     : i % 16 == 2 ? UINT64_C(1) << 62 | (offset + 512 * (i % 100))
                     : i % 16 == 3 ? offset | 1
                                   : UINT64_C(1) << 63 | offset;
    }
}

int main(int count, char **words) {
    static uint64_t entries[ENTRIES];
    const char *way = count == 2 ? words[1] : "";
    reading *volatile read_entry = strcmp(way, "library") == 0 ? zq_l2_entry : strcmp(way, "plain") == 0 ? plain_entry : no_entry;
    uint64_t sum = 0;
    zq_header header;
    zq_mapping mapping = {0, 0, 0, 0};
    memset(&header, 0, sizeof header);
    header.cluster_bits = CLUSTER_BITS;
    fill(entries);
    for (uint64_t i = 0; i < (uint64_t)ENTRIES * ROUNDS; i++) {
        uint32_t fault = read_entry(entries[i % ENTRIES], &header, i << CLUSTER_BITS, &mapping);
        sum = sum * 3 + (fault ^ mapping.kind ^ mapping.copied ^ mapping.offset ^ mapping.length);
    }
    printf("%" PRIx64 "\n", sum);
    return 0;
}
