/* Prints the header of a qcow2 image as qmeta info does, and then its mapped guest clusters as qmeta list does, but
 * refuses a table past the file's end (fault 21), and accepts images that are marked or compressed by zstd. Usage:
 * entries IMAGE. The status is 1 after a fault, and 2 if the image can't be read. Build it by
 *
 * cc -I include examples/c/entries.c crates/qcow2_ffi/out/libzaqulle.a */
#define _POSIX_C_SOURCE 200809L
#include <fcntl.h>
#include <inttypes.h>
#include <stdio.h>
#include <sys/mman.h>
#include <sys/stat.h>

#include "zaqulle.h"

static uint64_t number_at(const uint8_t *bytes) {
    uint64_t number = 0;
    for (int i = 0; i < 8; i++) {
        number = number << 8 | bytes[i];
    }
    return number;
}

static void print_name(const char *label, const uint8_t *image, zq_name name) {
    if (name.offset == 0) {
        printf("%s none\n", label);
        return;
    }
    printf("%s %" PRIu32 " ", label, name.length);
    fwrite(image + name.offset, 1, name.length, stdout);
    printf("\n");
}

static void print_header(const uint8_t *image, const zq_header *header) {
    printf("version %" PRIu32 "\ncluster-bits %" PRIu32 "\n", header->version, header->cluster_bits);
    printf("size %" PRIu64 "\nrefcount-order %" PRIu32 "\n", header->size, header->refcount_order);
    printf("l1 0x%" PRIx64 " %" PRIu32 "\n", header->l1_offset, header->l1_entries);
    printf("refcount-table 0x%" PRIx64 " %" PRIu32 "\n", header->reftable_offset, header->reftable_clusters);
    print_name("backing", image, header->backing_name);
    print_name("format", image, header->backing_format);
    printf("external %s\n", header->incompatible_features & ZQ_EXTERNAL_DATA_FILE ? "yes" : "no");
    print_name("data-file", image, header->data_file);
}

static void print_mapping(uint64_t guest_offset, const zq_mapping *mapping) {
    const char *copied = mapping->copied ? " copied" : "";
    if (mapping->kind == ZQ_COMPRESSED) {
        printf("0x%" PRIx64 " compressed 0x%" PRIx64 " %" PRIu64 "\n", guest_offset, mapping->offset, mapping->length);
    } else if (mapping->kind == ZQ_ZERO) {
        printf("0x%" PRIx64 " zero\n", guest_offset);
    } else if (mapping->kind != ZQ_BACKING) {
        const char *kind = mapping->kind == ZQ_DATA ? "data" : "zero";
        printf("0x%" PRIx64 " %s 0x%" PRIx64 "%s\n", guest_offset, kind, mapping->offset, copied);
    }
}

static uint32_t print_table(const uint8_t *table, uint64_t size, const zq_header *header, uint64_t guest_offset) {
    size_t index;
    uint32_t fault = zq_l2_check(table, (size_t)size, header, &index);
    for (uint64_t i = 0; fault == ZQ_OK && i < size / 8; i++, guest_offset += size) {
        zq_mapping mapping;
        fault = zq_l2_entry(number_at(table + 8 * i), header, guest_offset, &mapping);
        if (fault == ZQ_OK) {
            print_mapping(guest_offset, &mapping);
        }
    }
    return fault;
}

static uint32_t print_tables(const uint8_t *image, uint64_t length, const zq_header *header) {
    uint64_t size = UINT64_C(1) << header->cluster_bits; /* size of a cluster, and of an L2 table */
    uint32_t fault = ZQ_OK;
    if (header->l1_offset > length || length - header->l1_offset < 8 * (uint64_t)header->l1_entries) {
        return ZQ_TABLE_PLACE;
    }
    for (uint64_t i = 0; fault == ZQ_OK && i < header->l1_entries; i++) {
        uint64_t offset = 0;
        uint32_t copied;
        fault = zq_l1_entry(number_at(image + header->l1_offset + 8 * i), header, &offset, &copied);
        if (offset > length || length - offset < size) {
            fault = ZQ_TABLE_PLACE;
        } else if (offset != 0) {
            fault = print_table(image + offset, size, header, i * (size / 8) * size);
        }
    }
    return fault;
}

int main(int count, char **words) {
    struct stat status;
    int file = count == 2 ? open(words[1], O_RDONLY) : -1;
    size_t length = file >= 0 && fstat(file, &status) == 0 ? (size_t)status.st_size : 0;
    const uint8_t *image = length > 0 ? (const uint8_t *)mmap(NULL, length, PROT_READ, MAP_PRIVATE, file, 0) : NULL;
    if (image == NULL || image == (const uint8_t *)MAP_FAILED) {
        fprintf(stderr, "entries: can't read the image\n");
        return 2;
    }
    zq_header header;
    uint32_t fault = zq_header_read(image, length, &header);
    if (fault == ZQ_OK) {
        print_header(image, &header);
        fault = print_tables(image, length, &header);
    }
    if (fault != ZQ_OK) {
        fprintf(stderr, "entries: fault %" PRIu32 ": %s\n", fault, zq_fault_text(fault));
    }
    return fault != ZQ_OK;
}
