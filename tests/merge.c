/* The call for merge patches, through the header: examples of RFC 7396, a refusal of
 * two kinds, and the lent memory. */
#include "json_patch.h"

#include <stdio.h>
#include <string.h>

static json_patch_work work;
static char output[256];
static int failed;

static void expect(int held, const char *what) {
    if (!held) {
        printf("FAILED: %s\n", what);
        failed = 1;
    }
}

static json_patch_answer merged(const char *document, const char *patch, size_t room) {
    json_patch_answer answer;
    memset(output, '#', sizeof output);
    json_patch_merge_with(document, strlen(document), patch, strlen(patch), output, room, &work, &answer);
    return answer;
}

static const char *const examples[][3] = {
    {"{\"a\":\"b\"}", "{\"a\":\"c\"}", "{\"a\":\"c\"}"},
    {"{\"a\":\"b\"}", "{\"b\":\"c\"}", "{\"a\":\"b\",\"b\":\"c\"}"},
    {"{\"a\":\"b\"}", "{\"a\":null}", "{}"},
    {"{\"a\":{\"b\":\"c\"}}", "{\"a\":{\"b\":\"d\",\"c\":null}}", "{\"a\":{\"b\":\"d\"}}"},
    {"{\"a\":\"foo\"}", "null", "null"},
    {"[1,2]", "{\"a\":\"b\",\"c\":null}", "{\"a\":\"b\"}"},
    {"{}", "{\"a\":{\"bb\":{\"ccc\":null}}}", "{\"a\":{\"bb\":{}}}"},
};

int main(void) {
    json_patch_answer answer;
    size_t k;
    for (k = 0; k < sizeof examples / sizeof *examples; k++) {
        const size_t length = strlen(examples[k][2]);
        answer = merged(examples[k][0], examples[k][1], sizeof output);
        expect(answer.number == JSON_PATCH_DONE && answer.length == length, examples[k][1]);
        expect(memcmp(output, examples[k][2], length) == 0 && output[length] == '#', examples[k][2]);
    }
    answer = merged("{}", "{\"a\" 1}", sizeof output);
    expect(answer.number == JSON_PATCH_NOT_JSON && answer.text == 2 && answer.place == 5, "not JSON text");
    expect(output[0] == '#', "a refusal leaves the output");
    answer = merged("{\"a\":1}", "{\"b\":2}", 12);
    expect(answer.number == JSON_PATCH_OUTPUT_TOO_SHORT && answer.text == 0, "no room");
    for (k = 0; k < JSON_PATCH_WORK_ENTRIES; k++)
        if (work.index[k] != 0) expect(0, "the index is cleared");
    for (k = 0; k < JSON_PATCH_WORK_NODES; k++)
        if (work.nodes[k].tags != 0 || work.nodes[k].span != 0) expect(0, "the nodes are cleared");
    if (!failed) puts("merge: ok");
    return failed;
}
