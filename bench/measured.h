/* What the programs here that measure sessions share: a clock, files as texts, and blocks of memory that know their size. Who includes it
 * asks for POSIX before. */
#ifndef MEASURED_H
#define MEASURED_H

#include <stdint.h>
#include <stdio.h>
#include <stdlib.h>
#include <string.h>
#include <time.h>

#define HEAD 16 /* bytes before each block, which have its size */

typedef struct {
    uint8_t *bytes;
    size_t count;
} text;

static void give_up(const char *what) {
    perror(what);
    exit(70);
}

static text text_of(const char *file_name) {
    text read = {NULL, 0};
    size_t more;
    FILE *file = fopen(file_name, "rb");
    if (!file) give_up(file_name);
    do {
        read.bytes = (uint8_t *)realloc(read.bytes, read.count + 65536);
        if (!read.bytes) give_up("memory");
        more = fread(read.bytes + read.count, 1, 65536, file);
        read.count += more;
    } while (more > 0);
    if (ferror(file)) give_up(file_name);
    fclose(file);
    return read;
}

/* The time of the processor that this thread took so far. */
static uint64_t nanoseconds(void) {
    struct timespec now;
    clock_gettime(CLOCK_THREAD_CPUTIME_ID, &now);
    return (uint64_t)now.tv_sec * 1000000000U + (uint64_t)now.tv_nsec;
}

static size_t size_of(const void *p) {
    size_t size;
    memcpy(&size, (const uint8_t *)p - HEAD, sizeof size);
    return size;
}

#endif
