/* What an undo costs: nanoseconds of processor time for a plain call and for a call
 * with an undo on the same texts, the least of many rounds. Built and run by
 * bench/undo.sh. */
#define _POSIX_C_SOURCE 200809L
#include "drivers/driver.h"
#include "json_patch.h"

#define ROUNDS 60

static json_patch_undo_work work;
static uint8_t output[1 << 17], undo[JSON_PATCH_MAX_BYTES];

static const char *document, *patch;
static size_t document_length, patch_length;

static uint32_t plain(json_patch_undo_answer *answer) {
    answer->undo = 0;
    return json_patch_apply_with(document, document_length, patch, patch_length, output, sizeof output, &work.work, &answer->answer);
}

static uint32_t with_undo(json_patch_undo_answer *answer) {
    return json_patch_undo_with(document, document_length, patch, patch_length, output, sizeof output, undo, sizeof undo, &work,
                                answer);
}

/* Nanoseconds of one call: rounds of about two milliseconds. */
static double least(uint32_t call(json_patch_undo_answer *), json_patch_undo_answer *answer) {
    double best = 1e18, took;
    long calls = 1, i;
    int round;
    for (round = 0; round < ROUNDS; round++) {
        const double start = driver_clock(CLOCK_PROCESS_CPUTIME_ID);
        for (i = 0; i < calls; i++) call(answer);
        took = (driver_clock(CLOCK_PROCESS_CPUTIME_ID) - start) / (double)calls;
        if (took < best) best = took;
        if (took * (double)calls < 1e6) calls *= 2;
    }
    return best;
}

int main(int argc, char **argv) {
    json_patch_undo_answer answer;
    double of_plain, of_undo;
    if (argc != 4) {
        fprintf(stderr, "usage: %s NAME DOCUMENT PATCH\n", argv[0]);
        return 2;
    }
    document = driver_read(argv[2], &document_length);
    patch = driver_read(argv[3], &patch_length);
    of_plain = least(plain, &answer);
    if (answer.answer.number != JSON_PATCH_DONE) {
        fprintf(stderr, "%s: refused %d\n", argv[1], (int)answer.answer.number);
        return 1;
    }
    of_undo = least(with_undo, &answer);
    printf("%-10s %10.0f %10.0f %6.2f %8d %8d\n", argv[1], of_plain, of_undo, of_undo / of_plain, (int)answer.answer.number,
           (int)answer.undo);
    return 0;
}
