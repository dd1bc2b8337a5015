/* A call whose work area tests/dump.sh looks at: DOCUMENT and PATCH are files. */
#include "json_patch.h"

#include <stdio.h>
#include <stdlib.h>

static json_patch_work work;
static char document[JSON_PATCH_MAX_BYTES + 1], patch[JSON_PATCH_MAX_BYTES + 1];
static char output[JSON_PATCH_TOOL_OUTPUT];

static size_t read_file(const char *name, char *to) {
    FILE *file = fopen(name, "rb");
    size_t length;
    if (!file) {
        perror(name);
        exit(2);
    }
    length = fread(to, 1, JSON_PATCH_MAX_BYTES + 1, file);
    fclose(file);
    return length;
}

int main(int argc, char **argv) {
    json_patch_answer answer;
    size_t document_length, patch_length;
    char words[128];
    if (argc != 3) return 2;
    document_length = read_file(argv[1], document);
    patch_length = read_file(argv[2], patch);
    json_patch_apply_with(document, document_length, patch, patch_length, output, sizeof output, &work, &answer);
    json_patch_describe(&answer, words, sizeof words);
    puts(words);
    return answer.number != JSON_PATCH_DONE;
}
