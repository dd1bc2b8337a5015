/* The call with an undo in include/json_patch.h: words, layout, lent memory of every
 * kind, and the plain call beside it. Compiled as C99 and as C++ by tests/header.sh. */
#include "json_patch.h"

#include <stdio.h>
#include <string.h>

static json_patch_undo_work work;
static int failures;

static void expect(int holds, const char *what) {
    if (holds) return;
    printf("FAILED: %s\n", what);
    failures++;
}

static json_patch_undo_answer made(uint64_t number, uint64_t text, uint64_t op, uint64_t place, uint64_t pointer,
                                   uint64_t length, uint64_t undo) {
    json_patch_undo_answer made;
    made.answer.number = number;
    made.answer.text = text;
    made.answer.op = op;
    made.answer.place = place;
    made.answer.pointer = pointer;
    made.answer.length = length;
    made.undo = undo;
    return made;
}

static void described(json_patch_undo_answer answer, size_t patch_length, int of_undo, const char *words) {
    char buffer[160];
    const size_t length = strlen(words);
    size_t size;
    expect(json_patch_undo_refused(&answer, patch_length) == of_undo, words);
    expect(json_patch_undo_describe(&answer, patch_length, NULL, 0) == length, words);
    for (size = 1; size < 150; size++) {
        const size_t kept = length < size - 1 ? length : size - 1;
        memset(buffer, '#', sizeof buffer);
        expect(json_patch_undo_describe(&answer, patch_length, buffer, size) == length, words);
        expect(memcmp(buffer, words, kept) == 0 && buffer[kept] == '\0', words);
        expect(buffer[size] == '#', "nothing behind the lent size");
    }
}

static void words(void) {
    described(made(0, 0, 0, 0, 0, 32, 29), 40, 0, "done: 32 bytes written, undo of 29 bytes");
    described(made(1, 0, 0, 0, 0, 0, 0), 40, 0, "refused 1: the work area is shorter than stated");
    described(made(2, 2, 0, 0, 0, 0, 0), 32769, 0, "refused 2: patch: the text is longer than 32,768 bytes");
    described(made(2, 2, 0, 0, 0, 0, 0), 32768, 1, "refused 2: undo: the text is longer than 32,768 bytes");
    described(made(2, 1, 0, 0, 0, 0, 0), 2, 0, "refused 2: document: the text is longer than 32,768 bytes");
    described(made(5, 2, 0, 37, 0, 0, 0), 99, 0, "refused 5: patch, byte 37: more than 32 nested containers");
    described(made(5, 2, 0, 0, 0, 0, 0), 99, 1, "refused 5: undo: more than 32 nested containers");
    described(made(5, 0, 4, 0, 0, 0, 0), 99, 0, "refused 5: operation 4: more than 32 nested containers");
    described(made(6, 2, 0, 0, 0, 0, 0), 99, 1, "refused 6: undo: more than 2,048 values");
    described(made(9, 2, 0, 0, 0, 0, 0), 99, 1, "refused 9: undo: more than 256 operations");
    described(made(9, 0, 0, 0, 0, 0, 0), 99, 0, "refused 9: more than 256 operations");
    described(made(3, 2, 0, 0, 0, 0, 0), 0, 0, "refused 3: patch, byte 0: not JSON text");
    described(made(16, 0, 0, 0, 0, 0, 0), 99, 0, "refused 16: the result is longer than the lent output");
}

static void layout(void) {
    expect(sizeof(json_patch_undo_answer) == 56, "seven words");
    expect(offsetof(json_patch_undo_answer, undo) == 48, "the undo's length is the last");
    expect(sizeof work == 147456, "a work area of 144 KiB");
    expect(offsetof(json_patch_undo_work, text) == sizeof(json_patch_work), "the buffer stands behind the plain work area");
}

static int all(const void *from, size_t length, unsigned char byte) {
    const unsigned char *bytes = JSON_PATCH_AS_(const unsigned char *, from);
    while (length--)
        if (*bytes++ != byte) return 0;
    return 1;
}

/* The whole answer and both outputs of a call, whatever they held before. */
static void gives(const char *document, const char *patch, size_t room, size_t undo_room, json_patch_undo_answer wanted,
                  const char *text, const char *undo_text) {
    char output[128], undo[128];
    json_patch_undo_answer answer;
    const size_t length = strlen(text), undo_length = strlen(undo_text);
    memset(&work, 0xa5, sizeof work);
    memset(&answer, 0xa5, sizeof answer);
    memset(output, '#', sizeof output);
    memset(undo, '#', sizeof undo);
    wanted.answer.length = length;
    wanted.undo = undo_length;
    expect(json_patch_undo_with(document, strlen(document), patch, strlen(patch), output, room, undo, undo_room, &work,
                                &answer) == wanted.answer.number,
           patch);
    expect(memcmp(&answer, &wanted, sizeof answer) == 0, patch);
    expect(memcmp(output, text, length) == 0 && all(output + length, sizeof output - length, '#'), "the output");
    expect(memcmp(undo, undo_text, undo_length) == 0 && all(undo + undo_length, sizeof undo - undo_length, '#'), "the undo");
    expect(all(&work, sizeof work, 0), "the work area is zero");
}

static void calls(void) {
    static const char add[] = "[{\"op\":\"add\",\"path\":\"/a\",\"value\":1}]";
    static const char removed[] = "[{\"op\":\"remove\",\"path\":\"/a\"}]";
    const json_patch_undo_answer done = made(0, 0, 0, 0, 0, 0, 0), short_output = made(16, 0, 0, 0, 0, 0, 0);
    gives(" [ 1 ] ", "[]", 3, 2, done, "[1]", "[]");
    gives("{}", add, 7, 29, done, "{\"a\":1}", removed);
    gives("{}", add, 128, 128, done, "{\"a\":1}", removed);
    gives("{}", add, 7, 28, short_output, "", "");
    gives("{}", add, 6, 29, short_output, "", "");
    gives("{}", removed, 128, 128, made(11, 0, 1, 0, 1, 0, 0), "", "");
    gives("[1,]", "[]", 128, 128, made(3, 1, 0, 3, 0, 0, 0), "", "");
    gives("[[[[[[[[[[[[[[[[[[[[[[[[[[[[[[[]]]]]]]]]]]]]]]]]]]]]]]]]]]]]]]", "[{\"op\":\"add\",\"path\":\"\",\"value\":1}]", 128, 128,
          made(5, 2, 0, 0, 0, 0, 0), "", "");
}

/* Null where a length is 0. */
static void nulls(void) {
    json_patch_undo_answer answer;
    char output[4], undo[4];
    expect(json_patch_undo_with(NULL, 0, "[]", 2, output, 4, undo, 4, &work, &answer) == JSON_PATCH_NOT_JSON, "no document");
    expect(json_patch_undo_with("[]", 2, NULL, 0, output, 4, undo, 4, &work, &answer) == JSON_PATCH_NOT_JSON, "no patch");
    expect(json_patch_undo_with("[]", 2, "[]", 2, NULL, 0, undo, 4, &work, &answer) == JSON_PATCH_OUTPUT_TOO_SHORT, "no output");
    expect(json_patch_undo_with("[]", 2, "[]", 2, output, 4, NULL, 0, &work, &answer) == JSON_PATCH_OUTPUT_TOO_SHORT, "no undo");
    expect(json_patch_undo_with("[]", 2, "[]", 2, output, 4, undo, 4, &work, &answer) == JSON_PATCH_DONE, "done");
    expect(answer.answer.length == 2 && answer.undo == 2, "both lengths");
}

/* A buffer or a list one short: 1, and nothing has changed. A longer one: the part
 * beyond is unchanged. */
static void lent(void) {
    static json_patch_node nodes[JSON_PATCH_WORK_NODES + 1];
    static uint16_t entries[JSON_PATCH_WORK_ENTRIES + 1];
    static uint8_t buffer[JSON_PATCH_UNDO_BYTES + 1];
    const uint8_t *text = JSON_PATCH_AS_(const uint8_t *, JSON_PATCH_AS_(const void *, "[]"));
    uint8_t output[4], undo[4];
    json_patch_undo_answer answer;
    size_t which;
    memset(nodes, 0xa5, sizeof nodes);
    memset(entries, 0xa5, sizeof entries);
    memset(buffer, 0xa5, sizeof buffer);
    memset(output, '#', sizeof output);
    memset(undo, '#', sizeof undo);
    for (which = 0; which < 3; which++) {
        expect(json_patch_apply_with_undo(text, 2, text, 2, output, 4, undo, 4, nodes, JSON_PATCH_WORK_NODES - (which == 0),
                                          entries, JSON_PATCH_WORK_ENTRIES - (which == 1), buffer,
                                          JSON_PATCH_UNDO_BYTES - (which == 2), &answer) == JSON_PATCH_WORK_TOO_SHORT,
               "one short");
        expect(answer.answer.number == 1 && answer.undo == 0 && answer.answer.length == 0, "the answer of a 1");
        expect(all(nodes, sizeof nodes, 0xa5) && all(entries, sizeof entries, 0xa5) && all(buffer, sizeof buffer, 0xa5),
               "the work area untouched after a 1");
        expect(all(output, 4, '#') && all(undo, 4, '#'), "the outputs untouched after a 1");
    }
    expect(json_patch_apply_with_undo(text, 2, text, 2, output, 4, undo, 4, nodes, JSON_PATCH_WORK_NODES + 1, entries,
                                      JSON_PATCH_WORK_ENTRIES + 1, buffer, JSON_PATCH_UNDO_BYTES + 1, &answer) == JSON_PATCH_DONE,
           "done in longer ones");
    expect(all(nodes, JSON_PATCH_WORK_NODES * sizeof nodes[0], 0) && all(nodes + JSON_PATCH_WORK_NODES, sizeof nodes[0], 0xa5),
           "the records");
    expect(all(entries, JSON_PATCH_WORK_ENTRIES * sizeof entries[0], 0) && entries[JSON_PATCH_WORK_ENTRIES] == 0xa5a5, "the entries");
    expect(all(buffer, JSON_PATCH_UNDO_BYTES, 0) && buffer[JSON_PATCH_UNDO_BYTES] == 0xa5, "the buffer");
}

/* The undo is a patch for the plain call of the same archive. */
static void taken_back(void) {
    static const char document[] = "{\"a\":{\"b\":1,\"c\":2}}";
    static const char patch[] = "[{\"op\":\"move\",\"from\":\"/a/b\",\"path\":\"/a\"}]";
    json_patch_undo_answer answer;
    json_patch_answer back;
    char output[64], undo[64], before[64];
    expect(json_patch_undo_with(document, sizeof document - 1, patch, sizeof patch - 1, output, sizeof output, undo, sizeof undo,
                                &work, &answer) == JSON_PATCH_DONE,
           "applied");
    expect(json_patch_apply_with(output, answer.answer.length, undo, answer.undo, before, sizeof before, &work.work, &back) ==
               JSON_PATCH_DONE,
           "taken back");
    expect(back.length == sizeof document - 1 && memcmp(before, document, sizeof document - 1) == 0, "the document");
}

int main(void) {
    words();
    layout();
    calls();
    nulls();
    lent();
    taken_back();
    if (!failures) printf("undo: as expected\n");
    return failures != 0;
}
