/* This library. */
#define _POSIX_C_SOURCE 200809L
#include "driver.h"
#include "json_patch.h"

static json_patch_node nodes[JSON_PATCH_WORK_NODES];
static uint16_t entries[JSON_PATCH_WORK_ENTRIES];
static uint8_t output[1 << 20];

typedef struct pair {
    const uint8_t *document, *patch;
    size_t document_length, patch_length;
} pair;

static uint32_t call(const pair *p, json_patch_answer *answer) {
    return json_patch_apply(p->document, p->document_length, p->patch, p->patch_length, output, sizeof output, nodes,
                            JSON_PATCH_WORK_NODES, entries, JSON_PATCH_WORK_ENTRIES, answer);
}

/* Every pair once; the results are printed where `print` is not 0. */
static driver_sum told(const pair *pairs, long count, int print) {
    driver_sum sum = driver_none();
    for (long k = 0; k < count; k++) {
        json_patch_answer answer;
        if (call(&pairs[k], &answer) != JSON_PATCH_DONE) {
            fprintf(stderr, "error: refused %d text %d op %d place %d pointer %d\n", (int)answer.number,
                    (int)answer.text, (int)answer.op, (int)answer.place, (int)answer.pointer);
            exit(1);
        }
        sum = driver_more(sum, (const char *)output, answer.length);
        if (print) driver_print(k, (const char *)output, answer.length);
    }
    return sum;
}

int main(int argc, char **argv) {
    const long count = driver_pairs(argc, argv), rounds = atol(argv[argc - 1]);
    pair *pairs = (pair *)malloc((size_t)count * sizeof *pairs);
    json_patch_answer answer;
    if (!pairs) return 2;
    for (long k = 0; k < count; k++) {
        pairs[k].document = (const uint8_t *)driver_read(argv[2 * k + 1], &pairs[k].document_length);
        pairs[k].patch = (const uint8_t *)driver_read(argv[2 * k + 2], &pairs[k].patch_length);
    }
    const driver_sum sum = told(pairs, count, rounds == 0);
    if (rounds == 0) return 0;
    for (long i = 0; i < rounds / 10; i++)
        for (long k = 0; k < count; k++) call(&pairs[k], &answer);
    const double elapsed = driver_clock(CLOCK_MONOTONIC), processor = driver_clock(CLOCK_PROCESS_CPUTIME_ID);
    for (long i = 0; i < rounds; i++)
        for (long k = 0; k < count; k++) call(&pairs[k], &answer);
    const double processor_end = driver_clock(CLOCK_PROCESS_CPUTIME_ID), elapsed_end = driver_clock(CLOCK_MONOTONIC);
    driver_tell(elapsed_end - elapsed, processor_end - processor, rounds * count, sum);
    return 0;
}
