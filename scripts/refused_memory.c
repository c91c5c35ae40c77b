/* Preloaded to a program, it refuses one request for memory: the one with the number REFUSED_REQUEST, counted from 1.
 * Without that variable, or with 0, it refuses none. At the end it writes the number of requests, the bytes of the
 * greatest, and the number of blocks that the program didn't give back, into the file that REQUESTS_TOLD names.
 * Requests of the loader before the program begins don't count. Needs glibc. */
#include <stdio.h>
#include <stdlib.h>

extern void *__libc_malloc(size_t size);
extern void *__libc_calloc(size_t count, size_t size);
extern void *__libc_realloc(void *old, size_t size);
extern void *__libc_memalign(size_t alignment, size_t size);
extern void __libc_free(void *block);

static int has_begun;
static unsigned long refused, requests, greatest;
static long kept;

__attribute__((constructor)) static void begin(void) {
    const char *number = getenv("REFUSED_REQUEST");
    refused = number ? strtoul(number, NULL, 10) : 0;
    has_begun = 1;
}

static int is_refused(size_t size) {
    if (!has_begun)
        return 0;
    if (size > greatest)
        greatest = size;
    requests++;
    return requests == refused;
}

static void *handed_out(void *block) {
    kept += has_begun && block != NULL;
    return block;
}

void *malloc(size_t size) { return is_refused(size) ? NULL : handed_out(__libc_malloc(size)); }
void *calloc(size_t count, size_t size) { return is_refused(count * size) ? NULL : handed_out(__libc_calloc(count, size)); }
void *aligned_alloc(size_t alignment, size_t size) {
    return is_refused(size) ? NULL : handed_out(__libc_memalign(alignment, size));
}
void *realloc(void *old, size_t size) {
    void *block = is_refused(size) ? NULL : __libc_realloc(old, size);
    return old == NULL ? handed_out(block) : block;
}
void free(void *block) {
    kept -= has_begun && block != NULL;
    __libc_free(block);
}

__attribute__((destructor)) static void tell(void) {
    const char *path = getenv("REQUESTS_TOLD");
    FILE *file;
    has_begun = 0;
    file = path ? fopen(path, "w") : NULL;
    if (file) {
        fprintf(file, "%lu %lu %ld\n", requests, greatest, kept);
        fclose(file);
    }
}
