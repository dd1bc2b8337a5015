/* The plain call or the call with a region, so many times: bench/region.py builds
 * this and counts instructions. */
#include "json_patch.h"

#include <stdio.h>
#include <stdlib.h>
#include <string.h>

static json_patch_work work;
static char output[65536], document[40000], patch[40000];

static size_t read_file(const char *name, char *buffer, size_t size) {
    FILE *file = fopen(name, "rb");
    size_t length = file ? fread(buffer, 1, size, file) : 0;
    if (!file) {
        fprintf(stderr, "no %s\n", name);
        exit(2);
    }
    fclose(file);
    return length;
}

int main(int argc, char **argv) {
    if (argc != 5) {
        fprintf(stderr, "usage: %s DOCUMENT PATCH REGION|plain N\n", argv[0]);
        return 2;
    }
    const size_t document_length = read_file(argv[1], document, sizeof document);
    const size_t patch_length = read_file(argv[2], patch, sizeof patch);
    const int plain = strcmp(argv[3], "plain") == 0;
    json_patch_answer answer;
    for (long i = atol(argv[4]); i > 0; i--) {
        if (plain)
            json_patch_apply_with(document, document_length, patch, patch_length, output, sizeof output, &work, &answer);
        else
            json_patch_apply_within_with(document, document_length, patch, patch_length, argv[3], strlen(argv[3]), output,
                                         sizeof output, &work, &answer);
        if (answer.number != JSON_PATCH_DONE) {
            fprintf(stderr, "refused %d op %d\n", (int)answer.number, (int)answer.op);
            return 1;
        }
    }
    return 0;
}
