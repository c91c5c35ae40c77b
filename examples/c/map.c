/* Prints the extents of a qcow2 image's disk, as qmeta map does. Maps the image into memory, so that only the parts
 * that the library needs are read. Usage: map IMAGE. Prints the extents before a fault. The status is 1 after a fault,
 * and 2 if the image can't be read. Build it by
 *
 * cc -I include examples/c/map.c crates/qcow2_ffi/out/libzaqulle.a
 *
 * or, if the library is installed, by
 *
 * cc examples/c/map.c $(pkg-config --cflags --libs zaqulle) */
#define _POSIX_C_SOURCE 200809L
#include <fcntl.h>
#include <inttypes.h>
#include <stdio.h>
#include <sys/mman.h>
#include <sys/stat.h>
#include <unistd.h>

#include <zaqulle.h>

/* The number of extents that one call asks for. Each call reads the header and the L1 table again. */
enum { ROOM = 4096 };

/* Maps a file into read-only memory. Returns NULL if that fails. */
static const uint8_t *mapped(const char *path, size_t *length) {
    static const uint8_t none[1] = {0};
    struct stat status;
    void *bytes = MAP_FAILED;
    int file = open(path, O_RDONLY);
    if (file < 0) {
        return NULL;
    }
    if (fstat(file, &status) == 0) {
        *length = (size_t)status.st_size;
        bytes = *length == 0 ? (void *)none : mmap(NULL, *length, PROT_READ, MAP_PRIVATE, file, 0);
    }
    close(file);
    return bytes == MAP_FAILED ? NULL : (const uint8_t *)bytes;
}

static void print_extent(const zq_extent *extent) {
    printf("0x%" PRIx64 " 0x%" PRIx64, extent->guest_offset, extent->length);
    switch (extent->kind) {
        case ZQ_BACKING: printf(" backing\n"); break;
        case ZQ_DATA: printf(" data 0x%" PRIx64 "\n", extent->offset); break;
        case ZQ_ZERO: printf(" zero\n"); break;
        case ZQ_ZERO_ALLOCATED: printf(" zero 0x%" PRIx64 "\n", extent->offset); break;
        case ZQ_COMPRESSED: printf(" compressed\n"); break;
        default: printf(" unknown\n");
    }
}

/* Prints all extents, or those before a fault, and returns the fault. */
static uint32_t print_map(const uint8_t *image, size_t length) {
    static zq_extent extents[ROOM];
    uint64_t from_offset = 0;
    uint32_t fault = ZQ_OK;
    size_t count = ROOM;
    while (fault == ZQ_OK && count == ROOM) {
        fault = zq_image_extents(image, length, from_offset, extents, ROOM, &count);
        for (size_t i = 0; i < count; i++) {
            print_extent(&extents[i]);
            from_offset = extents[i].guest_offset + extents[i].length;
        }
    }
    return fault;
}

int main(int count, char **words) {
    size_t length = 0;
    const uint8_t *image = count == 2 ? mapped(words[1], &length) : NULL;
    if (image == NULL) {
        fprintf(stderr, "map: can't read the image\n");
        return 2;
    }
    uint32_t fault = print_map(image, length);
    if (fault != ZQ_OK) {
        fprintf(stderr, "map: fault %" PRIu32 ": %s\n", fault, zq_fault_text(fault));
    }
    return fault != ZQ_OK;
}
