/* This library, with a merge patch. */
#define _POSIX_C_SOURCE 200809L
#include "driver.h"
#include "json_patch.h"

static json_patch_work work;
static uint8_t output[1 << 20];

int main(int argc, char **argv) {
    size_t document_length, patch_length;
    const char *document, *patch;
    json_patch_answer answer;
    long calls, i;
    double elapsed, processor, elapsed_end, processor_end;
    if (argc != 4) {
        fprintf(stderr, "usage: %s DOCUMENT PATCH N\n", argv[0]);
        return 2;
    }
    document = driver_read(argv[1], &document_length);
    patch = driver_read(argv[2], &patch_length);
    calls = atol(argv[3]);
#define CALL() json_patch_merge_with(document, document_length, patch, patch_length, output, sizeof output, &work, &answer)
    if (CALL() != JSON_PATCH_DONE) {
        fprintf(stderr, "error: refused %d text %d place %d\n", (int)answer.number, (int)answer.text, (int)answer.place);
        return 1;
    }
    if (calls == 0) {
        fwrite(output, 1, answer.length, stdout);
        return 0;
    }
    for (i = 0; i < calls / 10; i++) CALL();
    elapsed = driver_clock(CLOCK_MONOTONIC), processor = driver_clock(CLOCK_PROCESS_CPUTIME_ID);
    for (i = 0; i < calls; i++) CALL();
    processor_end = driver_clock(CLOCK_PROCESS_CPUTIME_ID), elapsed_end = driver_clock(CLOCK_MONOTONIC);
    driver_tell(elapsed_end - elapsed, processor_end - processor, calls,
                driver_more(driver_none(), (const char *)output, answer.length));
    return 0;
}
