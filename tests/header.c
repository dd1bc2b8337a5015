/* The inline functions of include/json_patch.h: words, lent buffers of every
 * size, null pointers; and the struct of a node: its layout, a dump read through
 * it, a call that clears it. Compiled as C99 and as C++ by tests/header.sh. */
#include "json_patch.h"

#include <stdio.h>
#include <string.h>

static json_patch_work work;
static int failures;

static void expect(int holds, const char *what) {
    if (holds) return;
    printf("FAILED: %s\n", what);
    failures++;
}

static void described(json_patch_answer answer, const char *words) {
    char buffer[160];
    const size_t length = strlen(words);
    size_t size;
    expect(json_patch_describe(&answer, NULL, 0) == length, words);
    for (size = 1; size < 150; size++) {
        const size_t kept = length < size - 1 ? length : size - 1;
        memset(buffer, '#', sizeof buffer);
        expect(json_patch_describe(&answer, buffer, size) == length, words);
        expect(memcmp(buffer, words, kept) == 0 && buffer[kept] == '\0', words);
        expect(buffer[size] == '#', "nothing behind the lent size");
    }
}

static json_patch_answer made(uint64_t number, uint64_t text, uint64_t op, uint64_t place, uint64_t pointer, uint64_t length) {
    json_patch_answer answer;
    answer.number = number;
    answer.text = text;
    answer.op = op;
    answer.place = place;
    answer.pointer = pointer;
    answer.length = length;
    return answer;
}

static void words(void) {
    json_patch_answer longest;
    uint64_t number;
    described(made(0, 0, 0, 0, 0, 32), "done: 32 bytes written");
    described(made(0, 0, 0, 0, 0, 1), "done: 1 byte written");
    described(made(1, 0, 0, 0, 0, 0), "refused 1: the work area is shorter than stated");
    described(made(2, 2, 0, 0, 0, 0), "refused 2: patch: the text is longer than 32,768 bytes");
    described(made(3, 1, 0, 0, 0, 0), "refused 3: document, byte 0: not JSON text");
    described(made(5, 2, 0, 37, 0, 0), "refused 5: patch, byte 37: more than 32 nested containers");
    described(made(5, 0, 4, 0, 0, 0), "refused 5: operation 4: more than 32 nested containers");
    described(made(8, 0, 0, 0, 0, 0), "refused 8: the patch is malformed");
    described(made(11, 0, 1, 0, 1, 0), "refused 11: operation 1: `path`, after 0 tokens: the location does not exist");
    described(made(11, 0, 2, 1, 1, 0), "refused 11: operation 2: `path`, after 1 token: the location does not exist");
    described(made(12, 0, 3, 2, 2, 0), "refused 12: operation 3: `from`, after 2 tokens: a token is not an array index");
    described(made(15, 0, 256, 0, 0, 0), "refused 15: operation 256: the test found a difference");
    described(made(999, 0, UINT64_MAX, 0, 0, 0), "refused 999: operation 18446744073709551615: unknown answer");
    described(made(17, 0, 2, 0, 0, 0), "refused 17: operation 2: not permitted in the region");
    for (number = 0; number <= 17; number++) {
        expect(json_patch_message(number)[0] != '\0', "a message");
        expect(strcmp(json_patch_message(number), json_patch_message(18)) != 0, "a message of its own");
        const int lost = number == JSON_PATCH_LOCATION_MISSING || number == JSON_PATCH_NO_INDEX;
        longest = made(number, 1, UINT64_MAX, UINT64_MAX, lost ? JSON_PATCH_POINTER_FROM : 0, UINT64_MAX);
        expect(json_patch_describe(&longest, NULL, 0) < 128, "128 bytes hold any");
    }
}

/* Every field of an answer, after a call with an answer that held other numbers. */
static void answered(const char *document, const char *patch, json_patch_answer wanted) {
    json_patch_answer answer;
    char output[16];
    memset(&answer, 0xa5, sizeof answer);
    json_patch_apply_with(document, strlen(document), patch, strlen(patch), output, sizeof output, &work, &answer);
    expect(memcmp(&answer, &wanted, sizeof answer) == 0, patch);
}

static void pointers(void) {
    answered("{\"a\":[1,3]}", "[{\"op\":\"add\",\"path\":\"/a/3\",\"value\":2}]",
             made(JSON_PATCH_LOCATION_MISSING, 0, 1, 1, JSON_PATCH_POINTER_PATH, 0));
    answered("{\"a\":[1,3]}", "[{\"op\":\"test\",\"path\":\"/a/0\",\"value\":1},{\"op\":\"remove\",\"path\":\"/b\"}]",
             made(JSON_PATCH_LOCATION_MISSING, 0, 2, 0, JSON_PATCH_POINTER_PATH, 0));
    answered("{\"a\":[1,[3]]}", "[{\"op\":\"copy\",\"path\":\"\",\"from\":\"/a/1/x/y\"}]",
             made(JSON_PATCH_NO_INDEX, 0, 1, 2, JSON_PATCH_POINTER_FROM, 0));
    answered("{\"a\":[1,3]}", "[{\"op\":\"test\",\"path\":\"/a/0\",\"value\":2}]", made(JSON_PATCH_TEST_DIFFERS, 0, 1, 0, 0, 0));
    answered("[1,]", "[]", made(JSON_PATCH_NOT_JSON, JSON_PATCH_TEXT_DOCUMENT, 0, 3, 0, 0));
    answered("[1 ]", "[]", made(JSON_PATCH_DONE, 0, 0, 0, 0, 3));
}

/* The call with a region. */
static void answered_within(const char *region, const char *patch, json_patch_answer wanted) {
    const char *document = "{\"m\":{\"a\":1}}";
    json_patch_answer answer;
    char output[16];
    memset(&answer, 0xa5, sizeof answer);
    json_patch_apply_within_with(document, strlen(document), patch, strlen(patch), region, strlen(region), output,
                                 sizeof output, &work, &answer);
    expect(memcmp(&answer, &wanted, sizeof answer) == 0, patch);
}

static void regions(void) {
    const char *test = "[{\"op\":\"test\",\"path\":\"/m/a\",\"value\":1}]";
    answered_within("/m", test, made(JSON_PATCH_DONE, 0, 0, 0, 0, 13));
    answered_within("", test, made(JSON_PATCH_DONE, 0, 0, 0, 0, 13));
    answered_within("/m/a", test, made(JSON_PATCH_NOT_PERMITTED, 0, 1, 0, 0, 0));
    answered_within("/m", "[]", made(JSON_PATCH_NOT_PERMITTED, 0, 0, 0, 0, 0));
    answered_within("m", test, made(JSON_PATCH_MALFORMED_POINTER, 0, 0, 0, 0, 0));
    answered_within("/m", "[{\"op\":\"test\",\"path\":\"/m/b\",\"value\":1}]",
                    made(JSON_PATCH_LOCATION_MISSING, 0, 1, 1, JSON_PATCH_POINTER_PATH, 0));
}

static void values(void) {
    static const struct {
        const char *text;
        size_t count;
    } texts[] = {
        {"7", 1}, {"\"\"", 1}, {"[]", 1}, {"{}", 1}, {"[[],{}]", 3}, {"[null,true,-0.5e+1]", 4},
        {"{\"a\":1}", 2}, {"{\"\":[\"x\",{\"y\":\"]},:\\\"\\\\\"}],\"z\":\"\"}", 6}, {"{\"a\":\"a\",\"b\":\"b\"}", 3},
    };
    size_t k, size;
    for (k = 0; k < sizeof texts / sizeof *texts; k++) {
        const size_t length = strlen(texts[k].text);
        expect(json_patch_values(texts[k].text, length) == texts[k].count, texts[k].text);
        for (size = 0; size < length; size++)
            expect(json_patch_values(texts[k].text, size) <= size, "a text that is cut short");
    }
    expect(json_patch_values(NULL, 0) == 0, "no text");
}

static void calls(void) {
    json_patch_answer answer;
    char output[4];
    memset(&work, 0xa5, sizeof work);
    memset(&answer, 0xa5, sizeof answer);
    expect(json_patch_apply_with(" [ ] ", 5, "[]", 2, output, sizeof output, &work, &answer) == JSON_PATCH_DONE, "done");
    expect(answer.length == 2 && memcmp(output, "[]", 2) == 0, "written");
    expect(json_patch_apply_with(NULL, 0, "[]", 2, output, sizeof output, &work, &answer) == JSON_PATCH_NOT_JSON, "no document");
    expect(answer.text == JSON_PATCH_TEXT_DOCUMENT && answer.place == 0, "the document, at its end");
    expect(json_patch_apply_with("[]", 2, NULL, 0, output, sizeof output, &work, &answer) == JSON_PATCH_NOT_JSON, "no patch");
    expect(answer.text == JSON_PATCH_TEXT_PATCH, "the patch");
    expect(json_patch_apply_with("[]", 2, "[]", 2, NULL, 0, &work, &answer) == JSON_PATCH_OUTPUT_TOO_SHORT, "no output");
    expect(answer.number == JSON_PATCH_OUTPUT_TOO_SHORT && answer.length == 0, "refused");
}

/* A dump of {"mAh":3000,"cut":[4.2,3.0]}: docs/WORK-AREA.md, row by row. */
static const uint16_t dump[5][8] = {
    {0, 0, 0, 0, 4, 0, 6, 0},
    {2, 3, 7, 4, 0, 65256, 163, 0},
    {13, 3, 0, 0, 2, 43510, 133, 0},
    {0, 0, 19, 3, 0, 0, 35, 0},
    {0, 0, 23, 3, 0, 0, 35, 0},
};

static int same_node(json_patch_node a, json_patch_node b) {
    return a.name_start == b.name_start && a.name_length == b.name_length && a.start == b.start && a.length == b.length &&
           a.span == b.span && a.hash == b.hash && a.tags == b.tags && a.origin == b.origin;
}

static json_patch_node numbered(uint16_t first) {
    json_patch_node node;
    node.name_start = first;
    node.name_length = JSON_PATCH_AS_(uint16_t, first + 1);
    node.start = JSON_PATCH_AS_(uint16_t, first + 2);
    node.length = JSON_PATCH_AS_(uint16_t, first + 3);
    node.span = JSON_PATCH_AS_(uint16_t, first + 4);
    node.hash = JSON_PATCH_AS_(uint16_t, first + 5);
    node.tags = JSON_PATCH_AS_(uint16_t, first + 6);
    node.origin = JSON_PATCH_AS_(uint16_t, first + 7);
    return node;
}

static void layout(void) {
    expect(sizeof(json_patch_node) == 16, "a node has 16 bytes");
    expect(offsetof(json_patch_node, name_start) == 0 && offsetof(json_patch_node, name_length) == 2, "the name's offsets");
    expect(offsetof(json_patch_node, start) == 4 && offsetof(json_patch_node, length) == 6, "the text's offsets");
    expect(offsetof(json_patch_node, span) == 8 && offsetof(json_patch_node, hash) == 10, "the offsets of span and hash");
    expect(offsetof(json_patch_node, tags) == 12 && offsetof(json_patch_node, origin) == 14, "the offsets of tags and origin");
    expect(sizeof(json_patch_answer) == 48 && offsetof(json_patch_answer, pointer) == 32, "the answer's layout");
    expect(sizeof work == 114688 && offsetof(json_patch_work, index) == 98304, "a work area of 112 KiB");
}

/* The bytes of a dump, read through the struct. */
static void dumped(void) {
    static const char text[] = "{\"mAh\":3000,\"cut\":[4.2,3.0]}";
    json_patch_node node;
    expect(sizeof dump == 5 * sizeof(json_patch_node), "five records");
    memset(&work, 0, sizeof work);
    memcpy(work.nodes, dump, sizeof dump);

    node = json_patch_node_read(work.nodes, JSON_PATCH_WORK_NODES, 0);
    expect(json_patch_node_kind(node) == JSON_PATCH_KIND_OBJECT && node.span == 4, "row 0: an object, four nodes below");
    expect(json_patch_node_form(node) == JSON_PATCH_FORM_NONE && json_patch_node_name_form(node) == JSON_PATCH_FORM_NONE,
           "row 0: neither text nor name");

    node = json_patch_node_read(work.nodes, JSON_PATCH_WORK_NODES, 1);
    expect(json_patch_node_kind(node) == JSON_PATCH_KIND_NUMBER && node.span == 0, "row 1: a number");
    expect(node.name_length == 3 && memcmp(text + node.name_start, "mAh", 3) == 0, "row 1: its name");
    expect(node.length == 4 && memcmp(text + node.start, "3000", 4) == 0, "row 1: its text");
    expect(json_patch_node_form(node) == JSON_PATCH_FORM_NUMBER && json_patch_node_name_form(node) == JSON_PATCH_FORM_PLAIN,
           "row 1: a number, and a name without escapes");
    expect(json_patch_node_source(node) == JSON_PATCH_SOURCE_DOCUMENT &&
               json_patch_node_name_source(node) == JSON_PATCH_SOURCE_DOCUMENT,
           "row 1: both in the document");
    expect(node.hash == 65256 && node.origin == 0, "row 1: hash and origin");

    node = json_patch_node_read(work.nodes, JSON_PATCH_WORK_NODES, 2);
    expect(json_patch_node_kind(node) == JSON_PATCH_KIND_ARRAY && node.span == 2, "row 2: an array, two nodes below");
    expect(node.name_length == 3 && memcmp(text + node.name_start, "cut", 3) == 0, "row 2: its name");

    node = json_patch_node_read(work.nodes, JSON_PATCH_WORK_NODES, 4);
    expect(node.length == 3 && memcmp(text + node.start, "3.0", 3) == 0, "row 4: its text");

    /* The highest number of each part, alone. */
    node = numbered(0);
    node.tags = 7;
    expect(json_patch_node_kind(node) == 7 && json_patch_node_form(node) == 0 && json_patch_node_source(node) == 0 &&
               json_patch_node_name_form(node) == 0 && json_patch_node_name_source(node) == 0,
           "the kind alone");
    node.tags = 7 << 3;
    expect(json_patch_node_kind(node) == 0 && json_patch_node_form(node) == 7 && json_patch_node_source(node) == 0, "the form alone");
    node.tags = 1 << 6;
    expect(json_patch_node_form(node) == 0 && json_patch_node_source(node) == 1 && json_patch_node_name_form(node) == 0,
           "the source alone");
    node.tags = 7 << 7;
    expect(json_patch_node_source(node) == 0 && json_patch_node_name_form(node) == 7 && json_patch_node_name_source(node) == 0,
           "the name's form alone");
    node.tags = 1 << 10;
    expect(json_patch_node_name_form(node) == 0 && json_patch_node_name_source(node) == 1, "the name's source alone");
}

/* One record stored, read and cleared, and its neighbours as they were. */
static void records(void) {
    json_patch_node list[4];
    size_t row, other;
    for (row = 0; row < 4; row++) list[row] = numbered(JSON_PATCH_AS_(uint16_t, 100 * row + 1));
    for (row = 0; row < 4; row++) {
        const json_patch_node was = numbered(JSON_PATCH_AS_(uint16_t, 100 * row + 1));
        const json_patch_node made = numbered(JSON_PATCH_AS_(uint16_t, 65000 + row));
        const json_patch_node zero = {0, 0, 0, 0, 0, 0, 0, 0};
        expect(same_node(json_patch_node_read(list, 4, row), was), "read");
        json_patch_node_store(list, 4, row, made);
        expect(same_node(list[row], made), "stored");
        json_patch_node_clear(list, 4, row);
        expect(same_node(list[row], zero), "cleared");
        json_patch_node_store(list, 4, row, was);
        for (other = 0; other < 4; other++)
            expect(same_node(list[other], numbered(JSON_PATCH_AS_(uint16_t, 100 * other + 1))), "the neighbours");
    }
    /* Behind the list's end, which is not that of the memory. */
    for (row = 3; row < 5; row++) {
        const json_patch_node zero = {0, 0, 0, 0, 0, 0, 0, 0};
        expect(same_node(json_patch_node_read(list, 3, row), zero), "nothing is read behind the list");
        json_patch_node_store(list, 3, row, numbered(7));
        json_patch_node_clear(list, 3, row);
    }
    json_patch_node_store(list, 3, SIZE_MAX, numbered(7));
    json_patch_node_clear(list, 3, SIZE_MAX);
    for (other = 0; other < 4; other++)
        expect(same_node(list[other], numbered(JSON_PATCH_AS_(uint16_t, 100 * other + 1))), "nothing is changed behind the list");
}

/* A call clears every field of every record and the index, whatever they held,
 * and nothing beyond; after a 1 all is as it was. */
static void cleared(void) {
    static json_patch_node nodes[JSON_PATCH_WORK_NODES + 1];
    static uint16_t entries[JSON_PATCH_WORK_ENTRIES + 1];
    const json_patch_node zero = {0, 0, 0, 0, 0, 0, 0, 0};
    json_patch_answer answer;
    uint8_t output[4];
    const uint8_t *document = JSON_PATCH_AS_(const uint8_t *, JSON_PATCH_AS_(const void *, "[ 1 ]"));
    const uint8_t *patch = JSON_PATCH_AS_(const uint8_t *, JSON_PATCH_AS_(const void *, "[]"));
    size_t i, shorter;
    for (i = 0; i <= JSON_PATCH_WORK_NODES; i++) nodes[i] = numbered(JSON_PATCH_AS_(uint16_t, i + 1));
    for (i = 0; i <= JSON_PATCH_WORK_ENTRIES; i++) entries[i] = JSON_PATCH_AS_(uint16_t, i + 1);
    for (shorter = 0; shorter < 2; shorter++) {
        expect(json_patch_apply(document, 5, patch, 2, output, sizeof output, nodes, JSON_PATCH_WORK_NODES - shorter, entries,
                                JSON_PATCH_WORK_ENTRIES - 1 + shorter, &answer) == JSON_PATCH_WORK_TOO_SHORT,
               "a list one short");
        for (i = 0; i <= JSON_PATCH_WORK_NODES; i++)
            expect(same_node(nodes[i], numbered(JSON_PATCH_AS_(uint16_t, i + 1))), "untouched after a 1: a record");
        for (i = 0; i <= JSON_PATCH_WORK_ENTRIES; i++)
            expect(entries[i] == JSON_PATCH_AS_(uint16_t, i + 1), "untouched after a 1: an entry");
    }
    expect(json_patch_apply(document, 5, patch, 2, output, sizeof output, nodes, JSON_PATCH_WORK_NODES + 1, entries,
                            JSON_PATCH_WORK_ENTRIES + 1, &answer) == JSON_PATCH_DONE,
           "done in longer lists");
    for (i = 0; i < JSON_PATCH_WORK_NODES; i++)
        expect(same_node(json_patch_node_read(nodes, JSON_PATCH_WORK_NODES, i), zero), "a record is cleared");
    for (i = 0; i < JSON_PATCH_WORK_ENTRIES; i++) expect(entries[i] == 0, "an entry is cleared");
    expect(same_node(nodes[JSON_PATCH_WORK_NODES], numbered(JSON_PATCH_WORK_NODES + 1)), "the record beyond");
    expect(entries[JSON_PATCH_WORK_ENTRIES] == JSON_PATCH_WORK_ENTRIES + 1, "the entry beyond");
}

int main(void) {
    words();
    pointers();
    regions();
    values();
    calls();
    layout();
    dumped();
    records();
    cleared();
    if (!failures) printf("header: as expected, version %s\n", JSON_PATCH_VERSION);
    return failures != 0;
}
