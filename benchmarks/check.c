/* Checks an image by plain C, to time beside `qmeta check`: one walk over the tables counts the references to each
 * cluster in an array, a second compares the copied flags with the refcounts, and the end compares the refcounts with
 * the references. It takes images of version 3 without snapshots, with refcounts of 16 bits and data in clusters of the
 * file, and trusts them. scripts/time-against-qemu builds and times it. By hand: cc -O2 benchmarks/check.c -o check,
 * and ./check IMAGE. It prints `consistent`, or the numbers of leaked and missing clusters and of false and late flags,
 * and then has status 3. The status is 2 if it doesn't take the image, or a call fails. */
#define _FILE_OFFSET_BITS 64
#define _POSIX_C_SOURCE 200809L
#include <fcntl.h>
#include <inttypes.h>
#include <stdio.h>
#include <stdlib.h>
#include <string.h>
#include <sys/stat.h>
#include <unistd.h>

#define COMPRESSED (UINT64_C(1) << 62)
#define OFFSET UINT64_C(0xfffffffffffe00)

static int file;
static uint32_t bits;
static uint64_t clusters, false_flags, late_flags;
static uint16_t *uses, *refcounts;

/* Reads bytes of the image, zeros past its end, into memory, which it takes if `bytes` is NULL. */
static void *read_at(uint64_t offset, uint64_t length, void *bytes) {
    if (bytes == NULL && (bytes = malloc(length + 1)) == NULL)
        exit(2);
    ssize_t count = 0;
    for (uint64_t done = 0; done < length; done += (uint64_t)count) {
        if ((count = pread(file, (char *)bytes + done, length - done, (off_t)(offset + done))) < 0)
            exit(2);
        if (count == 0) {
            memset((char *)bytes + done, 0, length - done);
            break;
        }
    }
    return bytes;
}

static void use(uint64_t offset, uint64_t length) {
    for (uint64_t cluster = offset >> bits; cluster < clusters && cluster << bits < offset + length; cluster++)
        uses[cluster]++;
}

static void compare_flag(uint64_t entry) {
    uint64_t cluster = (entry & OFFSET) >> bits;
    uint64_t is_sole = cluster < clusters && refcounts[cluster] == 1, is_set = entry >> 63;
    false_flags += is_set & !is_sole;
    late_flags += is_sole & !is_set;
}

/* Counts the references of an entry, or compares its copied flag if `flags` is set. */
static void take_entry(uint64_t entry, int flags) {
    uint64_t width = 70 - bits, offset = entry & ((UINT64_C(1) << width) - 1);
    if (entry & COMPRESSED && !flags)
        use(offset, 512 * (((entry & ~COMPRESSED) >> width) + 1) - offset % 512);
    else if (!(entry & COMPRESSED) && entry & OFFSET && flags)
        compare_flag(entry);
    else if (!(entry & COMPRESSED) && entry & OFFSET && (entry & OFFSET) >> bits < clusters)
        uses[(entry & OFFSET) >> bits]++;
}

/* Walks over an L1 table and the L2 tables that it names, for references or for flags. */
static void walk(const uint64_t *l1_table, uint64_t count, uint64_t *table, int flags) {
    for (uint64_t i = 0; i < count; i++) {
        uint64_t named = __builtin_bswap64(l1_table[i]);
        if ((named & OFFSET) == 0)
            continue;
        take_entry(named & ~COMPRESSED, flags);
        read_at(named & OFFSET, UINT64_C(1) << bits, table);
        for (uint64_t k = 0; k < UINT64_C(1) << (bits - 3); k++)
            take_entry(__builtin_bswap64(table[k]), flags);
    }
}

/* Reads all refcounts, and counts the references to the blocks. */
static void read_blocks(const uint64_t *table, uint64_t count) {
    uint64_t each = UINT64_C(1) << (bits - 1);
    for (uint64_t i = 0; i < count; i++) {
        uint64_t offset = __builtin_bswap64(table[i]), first = i * each, end = first + each;
        use(offset, offset != 0);
        if (offset != 0 && first < clusters)
            read_at(offset, 2 * ((end < clusters ? end : clusters) - first), refcounts + first);
        for (uint64_t k = first; offset != 0 && k < end && k < clusters; k++)
            refcounts[k] = __builtin_bswap16(refcounts[k]);
    }
}

int main(int count, char **words) {
    struct stat status;
    if (count != 2 || (file = open(words[1], O_RDONLY)) < 0 || fstat(file, &status) != 0)
        return 2;
    uint64_t *large = read_at(0, 104, NULL), leaked = 0, missing = 0;
    uint32_t *small = (uint32_t *)large;
    bits = __builtin_bswap32(small[5]);
    if (bits < 9 || bits > 21 || __builtin_bswap32(small[1]) != 3 || __builtin_bswap32(small[24]) != 4)
        return 2;
    uint64_t l1_offset = __builtin_bswap64(large[5]), l1_size = __builtin_bswap32(small[9]);
    uint64_t blocks_offset = __builtin_bswap64(large[6]), blocks_size = (uint64_t)__builtin_bswap32(small[14]) << bits;
    clusters = ((uint64_t)status.st_size + (UINT64_C(1) << bits) - 1) >> bits;
    if ((uses = calloc(clusters, 2)) == NULL || (refcounts = calloc(clusters, 2)) == NULL)
        return 2;
    use(0, 1), use(l1_offset, 8 * l1_size), use(blocks_offset, blocks_size);
    uint64_t *l1_table = read_at(l1_offset, 8 * l1_size, NULL), *table = read_at(0, UINT64_C(1) << bits, NULL);
    read_blocks(read_at(blocks_offset, blocks_size, NULL), blocks_size / 8);
    walk(l1_table, l1_size, table, 0);
    walk(l1_table, l1_size, table, 1);
    for (uint64_t cluster = 0; cluster < clusters; cluster++) {
        leaked += refcounts[cluster] > uses[cluster];
        missing += refcounts[cluster] < uses[cluster];
    }
    if (leaked + missing + false_flags + late_flags == 0)
        return puts("consistent") < 0;
    printf("leaked %" PRIu64 " missing %" PRIu64, leaked, missing);
    printf(" false %" PRIu64 " late %" PRIu64 "\n", false_flags, late_flags);
    return 3;
}
