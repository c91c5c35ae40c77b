/* Discards all guest clusters that lie wholly in a range of the guest's disk, and frees their host clusters. Reads and
 * writes the tables by its own calls. Usage: trim IMAGE OFFSET LENGTH, in bytes. The status is 1 after a fault, and 2
 * if this program can't read, write or trim the image, or a word is no number. It takes no lock: make sure that nobody
 * else uses the image. A crash or a failure at any time only leaks clusters. Build it by
 *
 * cc -I include examples/c/trim.c crates/qcow2_ffi/out/libzaqulle.a
 *
 * or, if the library is installed, by
 *
 * cc examples/c/trim.c $(pkg-config --cflags --libs zaqulle) */
#define _POSIX_C_SOURCE 200809L
#include <fcntl.h>
#include <inttypes.h>
#include <stdio.h>
#include <stdlib.h>
#include <unistd.h>

#include <zaqulle.h>

#include "numbers.h"

enum { LARGEST_CLUSTER = 1 << 21, MOST_ENTRIES = LARGEST_CLUSTER / 8 };

static int image;
static zq_header header;
static size_t cluster_size;
static uint8_t table[LARGEST_CLUSTER], block[LARGEST_CLUSTER];
static zq_edit edits[MOST_ENTRIES];
static zq_clusters freed[MOST_ENTRIES];
static size_t freed_count;

static void stop(const char *why) {
    fprintf(stderr, "trim: %s\n", why);
    exit(2);
}

static void stop_at(uint32_t fault) {
    if (fault != ZQ_OK) {
        fprintf(stderr, "trim: fault %" PRIu32 ": %s\n", fault, zq_fault_text(fault));
        exit(1);
    }
}

static void read_at(uint64_t offset, uint8_t *bytes, size_t length) {
    if (pread(image, bytes, length, (off_t)offset) != (ssize_t)length) {
        stop("can't read the image");
    }
}

static void write_cluster(uint64_t offset, const uint8_t *bytes) {
    if (pwrite(image, bytes, cluster_size, (off_t)offset) != (ssize_t)cluster_size) {
        stop("can't write the image");
    }
}

static void sync_image(void) {
    if (fsync(image) != 0) {
        stop("can't write the image");
    }
}

static uint64_t number_at(uint64_t offset) {
    uint8_t bytes[8];
    uint64_t number = 0;
    read_at(offset, bytes, sizeof bytes);
    for (size_t i = 0; i < sizeof bytes; i++) {
        number = number << 8 | bytes[i];
    }
    return number;
}

static void read_header(void) {
    read_at(0, block, 104);
    stop_at(zq_header_bytes(block, 104, &cluster_size));
    read_at(0, block, cluster_size);
    stop_at(zq_header_read(block, cluster_size, &header));
    if (header.incompatible_features != 0 || header.autoclear_features != 0 || header.snapshots != 0) {
        stop("can't trim an image with snapshots, bitmaps or an external data file");
    }
    if (header.backing_name.offset != 0) {
        stop("can't trim an image with a backing file, whose data would be back");
    }
}

/* Whether the block with this index counts one of the freed clusters. */
static int counts_freed(uint64_t index, uint64_t counters) {
    for (size_t i = 0; i < freed_count; i++) {
        if (freed[i].first / counters <= index && index <= (freed[i].first + freed[i].count - 1) / counters) {
            return 1;
        }
    }
    return 0;
}

/* Subtracts the freed references from the refcounts and writes their blocks, or only tries whether that can be done. */
static void settle_blocks(int is_try) {
    uint64_t counters = (uint64_t)cluster_size * 8 >> header.refcount_order;
    uint64_t blocks = (uint64_t)header.reftable_clusters * (cluster_size / 8);
    for (uint64_t index = 0; index < blocks; index++) {
        if (!counts_freed(index, counters)) {
            continue;
        }
        uint64_t offset = number_at(header.reftable_offset + 8 * index);
        if (offset == 0 || offset % cluster_size != 0) {
            stop("a cluster that is referred to has no refcount: check the image");
        }
        read_at(offset, block, cluster_size);
        stop_at(zq_refcounts_settle(block, cluster_size, header.refcount_order, index, freed, freed_count, NULL, 0));
        if (!is_try) {
            write_cluster(offset, block);
        }
    }
}

/* Discards the entries of an L2 table from first up to end, which isn't included. */
static void trim_table(uint64_t l1_index, uint64_t first, uint64_t end) {
    uint64_t offset;
    uint32_t copied;
    size_t gained_count, bad;
    stop_at(zq_l1_entry(number_at(header.l1_offset + 8 * l1_index), &header, &offset, &copied));
    if (offset == 0) {
        return;
    }
    if (!copied) {
        stop("a table may have another reference: check the image");
    }
    read_at(offset, table, cluster_size);
    for (uint64_t i = first; i < end; i++) {
        edits[i - first] = (zq_edit){ZQ_EDIT_DISCARD, 0, i, 0};
    }
    stop_at(zq_l2_edit(table, cluster_size, &header, edits, (size_t)(end - first), freed, MOST_ENTRIES, &freed_count, NULL, 0,
                       &gained_count, &bad));
    settle_blocks(1);
    /* The table first: a crash in between leaks clusters, and does nothing worse. */
    write_cluster(offset, table);
    sync_image();
    settle_blocks(0);
    sync_image();
}

int main(int count, char **words) {
    uint64_t offset = 0, length = 0;
    if (count != 4 || !read_number(words[2], &offset) || !read_number(words[3], &length)) {
        stop("usage: trim IMAGE OFFSET LENGTH, in bytes, decimal or hexadecimal after 0x");
    }
    if ((image = open(words[1], O_RDWR)) < 0) {
        stop("can't open the image");
    }
    read_header();
    offset = offset < header.size ? offset : header.size;
    length = length < header.size - offset ? length : header.size - offset;
    uint64_t entries = cluster_size / 8, cluster = (offset + cluster_size - 1) / cluster_size;
    uint64_t end = (offset + length) / cluster_size;
    while (cluster < end && cluster / entries < header.l1_entries) {
        uint64_t next = (cluster / entries + 1) * entries;
        next = next < end ? next : end;
        trim_table(cluster / entries, cluster % entries, cluster % entries + (next - cluster));
        cluster = next;
    }
    return 0;
}
