/* What every driver prints. DRIVER DOCUMENT PATCH [DOCUMENT PATCH]... N
 *
 * N > 0: N rounds; in each, every document and its patch are read, the patch
 *        applied and the result written compactly, one pair after another. Before
 *        that a tenth as many rounds to warm up. Prints "NS LENGTH HASH CPU":
 *        nanoseconds a call, the written bytes of a round and their hash (FNV-1a),
 *        and nanoseconds of processor time a call, which is steadier on a shared
 *        machine.
 * N = 0: one round; prints the results, with a line end between two. If one is
 *        refused, "error: .." goes to the standard error and the status is 1. */
#ifndef DRIVER_H
#define DRIVER_H

#include <stdint.h>
#include <stdio.h>
#include <stdlib.h>
#include <time.h>

static inline double driver_clock(clockid_t clock) {
    struct timespec t;
    clock_gettime(clock, &t);
    return (double)t.tv_sec * 1e9 + (double)t.tv_nsec;
}

/* The whole file; *length is its length. */
static inline char *driver_read(const char *name, size_t *length) {
    FILE *file = fopen(name, "rb");
    char *bytes = (char *)malloc(1 << 16);
    if (!file || !bytes) {
        fprintf(stderr, "error: cannot read %s\n", name);
        exit(2);
    }
    *length = fread(bytes, 1, 1 << 16, file);
    fclose(file);
    return (char *)realloc(bytes, *length + 1);
}

/* How many pairs of files are named. */
static inline long driver_pairs(int argc, char **argv) {
    if (argc < 4 || argc % 2 != 0) {
        fprintf(stderr, "usage: %s DOCUMENT PATCH [DOCUMENT PATCH]... N\n", argv[0]);
        exit(2);
    }
    return argc / 2 - 1;
}

/* A round's results: their bytes and the hash of them all. */
typedef struct driver_sum {
    size_t length;
    uint64_t hash;
} driver_sum;

static inline driver_sum driver_none(void) {
    driver_sum sum = {0, UINT64_C(14695981039346656037)};
    return sum;
}

static inline driver_sum driver_more(driver_sum sum, const char *text, size_t length) {
    sum.length += length;
    for (size_t i = 0; i < length; i++) sum.hash = (sum.hash ^ (unsigned char)text[i]) * UINT64_C(1099511628211);
    return sum;
}

static inline void driver_print(long k, const char *text, size_t length) {
    if (k) putchar('\n');
    fwrite(text, 1, length, stdout);
}

static inline void driver_tell(double elapsed, double processor, long calls, driver_sum sum) {
    printf("%.0f %zu %016llx %.0f\n", elapsed / (double)calls, sum.length, (unsigned long long)sum.hash,
           processor / (double)calls);
}

#endif
