/*
 * The library `desk` from C: the positions at the end of a file, on the desk's page. The README has the line that builds it.
 *
 *     page REGISTER FILE    a register and an event file, each in a file of its own
 *
 * Status: 0 where the page is printed, 1 where an input is refused or cannot be read or the page cannot be written, 2 where
 * the command is wrong.
 */
#include "desk.h"
#include <stdio.h>

/* The largest register and file that pass; one byte more tells a longer one, which is refused whatever follows. */
enum { MOST_REGISTER = 2 + 13 * 32, MOST_FILE = 4 + 17 * 2048 };

/* Reads at most so many bytes, says where that fails, and answers whether it went well. */
static int read_bytes(const char *name, uint8_t *bytes, size_t most, size_t *length) {
    FILE *file = fopen(name, "rb");
    if (!file) {
        perror(name);
        return 0;
    }
    *length = fread(bytes, 1, most, file);
    int failed = ferror(file);
    fclose(file);
    if (failed) {
        fprintf(stderr, "%s: it cannot be read\n", name);
    }
    return !failed;
}

int main(int arguments, char **words) {
    static uint8_t register_bytes[MOST_REGISTER + 1], file[MOST_FILE + 1], page[DESK_PAGE_BYTES];
    size_t register_length, file_length;
    if (arguments != 3) {
        fprintf(stderr, "usage: page REGISTER FILE\n");
        return 2;
    }
    if (!read_bytes(words[1], register_bytes, sizeof register_bytes, &register_length) ||
        !read_bytes(words[2], file, sizeof file, &file_length)) {
        return 1;
    }
    uint64_t answer = desk_page(register_bytes, register_length, file, file_length, page, sizeof page);
    if (answer != 0 && answer < DESK_PAGE_LINE) {
        fprintf(stderr, "page: refused with %llu, %s\n", (unsigned long long)answer, desk_reason(answer));
        return 1;
    }
    if (fwrite(page, 1, answer, stdout) != answer || fflush(stdout) != 0) {
        perror("standard output");
        return 1;
    }
    return 0;
}
