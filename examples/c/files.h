/* Files whole, and a count of what went wrong. */
#ifndef FILES_H
#define FILES_H

#include <stdint.h>
#include <stdio.h>
#include <stdlib.h>
#include <string.h>

static int wrong;

static inline void expect(int is, const char *what) {
    if (!is) wrong++, printf("WRONG: %s\n", what);
}

/* The bytes of a file. */
static inline uint8_t *read_file(const char *name, size_t *len) {
    FILE *f = fopen(name, "rb");
    uint8_t *bytes = malloc(1 << 20);
    if (!f || !bytes) {
        fprintf(stderr, "can't read %s\n", name);
        exit(2);
    }
    *len = fread(bytes, 1, 1 << 20, f);
    fclose(f);
    return bytes;
}

static inline void write_file(const char *name, const uint8_t *bytes, size_t len) {
    FILE *f = fopen(name, "wb");
    if (!f || fwrite(bytes, 1, len, f) != len || fclose(f)) {
        fprintf(stderr, "can't write %s\n", name);
        exit(2);
    }
}

#endif
