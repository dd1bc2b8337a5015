/* What a list of origins costs: one of the four calls with a list or without it.
 * bench/origins.py builds this.
 *   origins CALL DOCUMENT PATCH with|without N    N calls, for callgrind
 *   origins CALL DOCUMENT PATCH time              nanoseconds of processor time without and with a
 *                                                 list, the two in turn, each the least of many rounds
 * CALL is apply, within (the whole document is the region), merge or undo. */
#define _POSIX_C_SOURCE 200809L
#include "drivers/driver.h"
#include "json_patch.h"

#include <string.h>

#define ROUNDS 80

static json_patch_undo_work work;
static uint8_t output[1 << 17], undo[JSON_PATCH_MAX_BYTES];
static uint16_t origins[JSON_PATCH_MAX_NODES];
static const char *document, *patch;
static size_t document_length, patch_length;

static uint32_t call(char kind, int list) {
    json_patch_answer answer;
    json_patch_undo_answer with_undo;
    const size_t entries = JSON_PATCH_MAX_NODES;
    switch (kind) {
    case 'a':
        return list ? json_patch_apply_origins_with(document, document_length, patch, patch_length, output,
                                                    sizeof output, origins, entries, &work.work, &answer)
                    : json_patch_apply_with(document, document_length, patch, patch_length, output, sizeof output,
                                            &work.work, &answer);
    case 'w':
        return list ? json_patch_apply_within_origins_with(document, document_length, patch, patch_length, "", 0,
                                                           output, sizeof output, origins, entries, &work.work,
                                                           &answer)
                    : json_patch_apply_within_with(document, document_length, patch, patch_length, "", 0, output,
                                                   sizeof output, &work.work, &answer);
    case 'm':
        return list ? json_patch_merge_origins_with(document, document_length, patch, patch_length, output,
                                                    sizeof output, origins, entries, &work.work, &answer)
                    : json_patch_merge_with(document, document_length, patch, patch_length, output, sizeof output,
                                            &work.work, &answer);
    default:
        return list ? json_patch_undo_origins_with(document, document_length, patch, patch_length, output,
                                                   sizeof output, undo, sizeof undo, origins, entries, &work,
                                                   &with_undo)
                    : json_patch_undo_with(document, document_length, patch, patch_length, output, sizeof output, undo,
                                           sizeof undo, &work, &with_undo);
    }
}

/* One round of calls; nanoseconds of each. */
static double took(char kind, int list, long calls) {
    const double start = driver_clock(CLOCK_PROCESS_CPUTIME_ID);
    long i;
    for (i = 0; i < calls; i++) call(kind, list);
    return (driver_clock(CLOCK_PROCESS_CPUTIME_ID) - start) / (double)calls;
}

int main(int argc, char **argv) {
    double best[2] = {1e18, 1e18};
    long calls = 1, i;
    int round, list;
    (void)driver_tell;
    if (argc != 5 && argc != 6) {
        fprintf(stderr, "usage: %s CALL DOCUMENT PATCH with|without N, or time\n", argv[0]);
        return 2;
    }
    document = driver_read(argv[2], &document_length);
    patch = driver_read(argv[3], &patch_length);
    for (list = 0; list < 2; list++) {
        const uint32_t number = call(argv[1][0], list);
        if (number != JSON_PATCH_DONE) {
            printf("refused %u\n", (unsigned)number);
            return 0;
        }
    }
    if (argc == 6) {
        for (i = atol(argv[5]); i > 0; i--) call(argv[1][0], strcmp(argv[4], "with") == 0);
        return 0;
    }
    while (took(argv[1][0], 0, calls) * (double)calls < 1e6) calls *= 2;
    for (round = 0; round < ROUNDS; round++)
        for (list = 0; list < 2; list++) {
            const double each = took(argv[1][0], list, calls);
            if (each < best[list]) best[list] = each;
        }
    printf("%.0f %.0f\n", best[0], best[1]);
    return 0;
}
