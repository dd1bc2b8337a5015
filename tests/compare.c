/* include/json_patch_compare.h: every field of the answer, null texts, the work
 * area afterwards. Compiled as C99 and as C++ by tests/header.sh. */
#include "json_patch_compare.h"

#include <stdio.h>
#include <string.h>

static json_patch_work work;
static int failures;

static void expect(int holds, const char *what) {
    if (holds) return;
    printf("FAILED: %s\n", what);
    failures++;
}

static int is_zero(const void *memory, size_t length) {
    const unsigned char *bytes = JSON_PATCH_AS_(const unsigned char *, memory);
    size_t at;
    for (at = 0; at < length; at++)
        if (bytes[at]) return 0;
    return 1;
}

static json_patch_comparison compared(const char *first, const char *second) {
    const size_t first_length = first ? strlen(first) : 0, second_length = second ? strlen(second) : 0;
    json_patch_comparison found;
    memset(&found, 0xFF, sizeof found);
    memset(&work, 0xFF, sizeof work);
    expect(json_patch_compare_with(first, first_length, second, second_length, &work, &found) == found.number,
           "the number");
    expect(is_zero(&work, sizeof work), "the work area is all zero");
    return found;
}

int main(void) {
    json_patch_comparison found =
        compared("{\"a\":[1,2],\"b\":\"x\"}", " { \"b\" : \"\\u0078\", \"a\" : [1.0, 2e0] } ");
    uint16_t index[1] = {7};
    static const uint8_t empty[2] = {0x5B, 0x5D};
    json_patch_node node;
    expect(found.number == JSON_PATCH_DONE && !found.text && !found.place, "done");
    expect(found.equal == 1 && found.names == 3, "equal, 3 names");
    found = compared("{\"a\":1,\"b\":2}", "{\"a\":9,\"b\":2}");
    expect(found.number == JSON_PATCH_DONE && !found.equal && found.names == 1, "different, 1 name");
    found = compared("{\"a\":1,\"b\":2}", "{\"a\":1}");
    expect(!found.number && !found.equal && !found.names, "other counts: no name");
    found = compared("[1,]", "[");
    expect(found.number == JSON_PATCH_NOT_JSON && found.text == 1 && found.place == 3, "3 in the first");
    expect(!found.equal && !found.names, "a refusal says nothing else");
    found = compared("[1]", "[");
    expect(found.number == JSON_PATCH_NOT_JSON && found.text == 2 && found.place == 1, "3 in the second");
    found = compared("0", NULL);
    expect(found.number == JSON_PATCH_NOT_JSON && found.text == 2 && found.place == 0, "a null text is empty");
    memset(&node, 0x55, sizeof node);
    expect(json_patch_compare(empty, 2, empty, 2, &node, 1, index, 1, &found) == JSON_PATCH_WORK_TOO_SHORT, "1");
    expect(index[0] == 7 && node.start == 0x5555, "after a 1 nothing has changed");
    if (failures) return 1;
    printf("the comparison: as expected\n");
    return 0;
}
