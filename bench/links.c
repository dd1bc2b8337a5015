/* What a link costs: nanoseconds for each KiB of pointer, written and read.
 *
 *     tools/staticlib.sh fragment
 *     gcc -O2 -Iinclude bench/links.c target/staticlib/libfragment.a -o target/links && target/links
 *
 * The least of many rounds of processor time. */
#define _POSIX_C_SOURCE 199309L
#include "json_patch_link.h"

#include <stdio.h>
#include <string.h>
#include <time.h>

#define ROUNDS 300
#define CALLS 100

static uint8_t pointer[65536], text[65536], output[65536];

static double now(void)
{
    struct timespec t;
    clock_gettime(CLOCK_PROCESS_CPUTIME_ID, &t);
    return t.tv_sec * 1e9 + t.tv_nsec;
}

typedef uint32_t call(const uint8_t *, size_t, uint8_t *, size_t, json_patch_link_answer *);

static double least(call *f, const uint8_t *in, size_t n, size_t *length)
{
    json_patch_link_answer answer;
    double best = 1e18;
    for (int round = 0; round < ROUNDS; round++) {
        double start = now();
        for (int i = 0; i < CALLS; i++) {
            if (f(in, n, output, sizeof output, &answer) != 0)
                return -1;
        }
        double took = (now() - start) / CALLS;
        if (took < best)
            best = took;
    }
    *length = answer.length;
    return best;
}

/* A pointer of n bytes, made of a piece again and again, and then of letters. */
static void measure(const char *name, const char *piece, size_t n)
{
    size_t m = strlen(piece), at = 1, link = 0, back = 0;
    pointer[0] = '/';
    for (; at + m <= n; at += m)
        memcpy(pointer + at, piece, m);
    for (; at < n; at++)
        pointer[at] = 'a';
    double written = least(json_patch_write_link, pointer, n, &link);
    memcpy(text, output, link);
    double read = least(json_patch_read_link, text, link, &back);
    printf("%-10s %6zu bytes, link %6zu: written %6.0f ns/KiB, read %6.0f ns/KiB\n", name, n, link,
           written * 1024 / n, read * 1024 / n);
    if (back != n || memcmp(output, pointer, n) != 0)
        printf("  not read back\n");
}

int main(void)
{
    measure("letters", "stages/0/mA/", 64);
    measure("letters", "stages/0/mA/", 1024);
    measure("letters", "stages/0/mA/", 32767);
    measure("blanks", "a longer name/", 1024);
    measure("accents", "\xC3\xA9t\xC3\xA9/", 1024);
    measure("all of it", "\xE2\x82\xAC", 1024);
    measure("all of it", "\xE2\x82\xAC", 10922);
    return 0;
}
