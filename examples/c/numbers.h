/* Numbers on the command lines of these programs. */
#ifndef NUMBERS_H
#define NUMBERS_H

#include <errno.h>
#include <stdint.h>
#include <stdlib.h>
#include <string.h>

/* Reads a word as a number below 2^64, and returns whether it is one: decimal digits, or hexadecimal ones after 0x,
 * and nothing else. strtoull alone skips blanks, accepts a sign and octal digits, and ignores a rest that it can't
 * read. */
static int read_number(const char *word, uint64_t *number) {
    int is_hexadecimal = strncmp(word, "0x", 2) == 0;
    const char *digits = is_hexadecimal ? word + 2 : word;
    size_t count = strspn(digits, is_hexadecimal ? "0123456789abcdefABCDEF" : "0123456789");
    errno = 0;
    *number = strtoull(digits, NULL, is_hexadecimal ? 16 : 10);
    return count > 0 && digits[count] == '\0' && errno == 0;
}

#endif
