/* What the C programs here share: checks that are told where they fail, and small files. */
#ifndef CHECK_H
#define CHECK_H

#include <stdint.h>
#include <stdio.h>
#include <stdlib.h>

static int failures;

static void check(int holds, const char *what) {
    if (!holds) {
        fprintf(stderr, "%s\n", what);
        failures++;
    }
}
#define CHECK(condition) check(condition, __FILE__ ": " #condition)

typedef struct {
    uint8_t bytes[1000];
    size_t length;
} file;

static file content(const char *name) {
    file f = {{0}, 0};
    FILE *in = fopen(name, "rb");
    if (!in || (f.length = fread(f.bytes, 1, sizeof f.bytes, in)) == sizeof f.bytes || ferror(in)) {
        perror(name);
        exit(2);
    }
    fclose(in);
    return f;
}

#endif
