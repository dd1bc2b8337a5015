/* What inspecting a patch costs, beside the plain call on the same patch with the
 * document 0: nanoseconds of processor time for a call, least of 200 rounds, the
 * two in turn. The plain call ends at the first operation that fails.
 *
 *     tools/staticlib.sh json_patch && tools/staticlib.sh inspect
 *     cc -O2 -Iinclude bench/inspect.c target/staticlib/libinspect.a \
 *         target/staticlib/libjson_patch.a -o target/inspect
 *     cd crates/patch_count/data && ../../../target/inspect none.json six.json most.json longest.json */
#include "json_patch_inspect.h"

#include <stdio.h>
#include <time.h>

enum { ROUNDS = 200, CALLS = 20 };

static json_patch_work work;
static uint8_t patch[JSON_PATCH_MAX_BYTES + 1], output[64];

static double now(void) {
    struct timespec time;
    clock_gettime(CLOCK_PROCESS_CPUTIME_ID, &time);
    return (double)time.tv_sec * 1e9 + (double)time.tv_nsec;
}

int main(int count, char **names) {
    int i, round, call;
    for (i = 1; i < count; i++) {
        FILE *file = fopen(names[i], "rb");
        size_t length = file ? fread(patch, 1, sizeof patch, file) : 0;
        json_patch_inspection found;
        json_patch_answer answer;
        double least[2] = {1e18, 1e18};
        if (!file) return 1;
        fclose(file);
        for (round = 0; round < ROUNDS; round++) {
            double start = now(), middle, end;
            for (call = 0; call < CALLS; call++) json_patch_inspect_with(patch, length, &work, &found);
            middle = now();
            for (call = 0; call < CALLS; call++)
                json_patch_apply_with("0", 1, patch, length, output, sizeof output, &work, &answer);
            end = now();
            if ((middle - start) / CALLS < least[0]) least[0] = (middle - start) / CALLS;
            if ((end - middle) / CALLS < least[1]) least[1] = (end - middle) / CALLS;
        }
        printf("%s: %zu bytes, %llu operations, number %llu: inspect %.0f, apply %.0f\n", names[i], length,
               (unsigned long long)json_patch_inspection_operations(&found), (unsigned long long)found.number,
               least[0], least[1]);
    }
    return 0;
}
