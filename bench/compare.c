/* What comparing two texts costs, beside the plain call on the first with a test of
 * the second: nanoseconds of processor time for a call, least of 100 rounds, the two
 * in turn. The second text has the first one's members in step, in reverse and in a
 * fixed disorder; two shapes: one object of n members, and n / 8 objects of 7
 * members in an array.
 *
 *     tools/staticlib.sh json_patch && tools/staticlib.sh compare
 *     cc -O2 -Iinclude bench/compare.c target/staticlib/libcompare.a \
 *         target/staticlib/libjson_patch.a -o target/compare && target/compare */
#include "json_patch_compare.h"

#include <stdio.h>
#include <time.h>

enum { ROUNDS = 100, CALLS = 5 };

static json_patch_work work;
static char texts[2][JSON_PATCH_MAX_BYTES + 1], patch[JSON_PATCH_MAX_BYTES + 64], output[65536];

static double now(void) {
    struct timespec time;
    clock_gettime(CLOCK_PROCESS_CPUTIME_ID, &time);
    return (double)time.tv_sec * 1e9 + (double)time.tv_nsec;
}

/* The k-th member of n in an order: 0 in step, 1 in reverse, 2 in disorder. */
static int member(int order, int k, int n) {
    return order == 0 ? k : order == 1 ? n - 1 - k : (int)((long)k * 769 % n);
}

static size_t object(char *text, int order, int n) {
    size_t at = 0;
    int k;
    text[at++] = '{';
    for (k = 0; k < n; k++)
        at += (size_t)sprintf(text + at, "%s\"m%04d\":%d", k ? "," : "", member(order, k, n), member(order, k, n) % 10);
    text[at++] = '}';
    return at;
}

static size_t array(char *text, int order, int n) {
    size_t at = 0;
    int k;
    text[at++] = '[';
    for (k = 0; k < n / 8; k++) {
        if (k) text[at++] = ',';
        at += object(text + at, order, 7);
    }
    text[at++] = ']';
    return at;
}

int main(void) {
    static const char *const shapes[] = {"object", "array"}, *const orders[] = {"in step", "reversed", "disorder"};
    static const int sizes[] = {250, 500, 1000, 2000};
    int shape, order, size, round, call;
    for (shape = 0; shape < 2; shape++)
        for (order = 0; order < 3; order++)
            for (size = 0; size < 4; size++) {
                const int n = sizes[size];
                const size_t first = shape ? array(texts[0], 0, n) : object(texts[0], 0, n);
                const size_t second = shape ? array(texts[1], order, n) : object(texts[1], order, n);
                const size_t length = (size_t)sprintf(patch, "[{\"op\":\"test\",\"path\":\"\",\"value\":%.*s}]",
                                                      (int)second, texts[1]);
                json_patch_comparison found;
                json_patch_answer answer;
                double least[2] = {1e18, 1e18};
                for (round = 0; round < ROUNDS; round++) {
                    double start = now(), middle, end;
                    for (call = 0; call < CALLS; call++)
                        json_patch_compare_with(texts[0], first, texts[1], second, &work, &found);
                    middle = now();
                    for (call = 0; call < CALLS; call++)
                        json_patch_apply_with(texts[0], first, patch, length, output, sizeof output, &work, &answer);
                    end = now();
                    if ((middle - start) / CALLS < least[0]) least[0] = (middle - start) / CALLS;
                    if ((end - middle) / CALLS < least[1]) least[1] = (end - middle) / CALLS;
                }
                if (found.number || !found.equal || answer.number) return 1;
                printf("%s, %s, %d values, %zu bytes: %llu names, %.0f ns; a test %.0f\n", shapes[shape], orders[order], n,
                       first, (unsigned long long)found.names, least[0], least[1]);
            }
    return 0;
}
