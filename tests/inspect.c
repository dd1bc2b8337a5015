/* include/json_patch_inspect.h: every field of the answer, a null patch, the work
 * area afterwards. Compiled as C99 and as C++ by tests/header.sh. */
#include "json_patch_inspect.h"

#include <stdio.h>
#include <string.h>

static json_patch_work work;
static int failures;

static void expect(int holds, const char *what) {
    if (holds) return;
    printf("FAILED: %s\n", what);
    failures++;
}

static int is_zero(const void *memory, size_t length) {
    const unsigned char *bytes = JSON_PATCH_AS_(const unsigned char *, memory);
    size_t at;
    for (at = 0; at < length; at++)
        if (bytes[at]) return 0;
    return 1;
}

static json_patch_inspection inspected(const char *patch) {
    json_patch_inspection found;
    memset(&found, 0xFF, sizeof found);
    memset(&work, 0xFF, sizeof work);
    expect(json_patch_inspect_with(patch, patch ? strlen(patch) : 0, &work, &found) == found.number, "the number");
    expect(is_zero(&work, sizeof work), "the work area is all zero");
    return found;
}

int main(void) {
    json_patch_inspection found = inspected(
        "[{\"op\":\"add\",\"path\":\"\",\"value\":0},{\"op\":\"remove\",\"path\":\"/a\"},"
        "{\"op\":\"move\",\"from\":\"/a\",\"path\":\"/b\"},{\"op\":\"remove\",\"path\":\"/b\"}]");
    uint16_t index[1] = {7};
    static const uint8_t empty[2] = {0x5B, 0x5D};
    json_patch_node node;
    expect(found.number == JSON_PATCH_DONE && !found.text && !found.op && !found.place, "done");
    expect(found.adds == 1 && found.removes == 2 && !found.replaces, "add, remove, replace");
    expect(found.moves == 1 && !found.copies && !found.tests, "move, copy, test");
    expect(json_patch_inspection_operations(&found) == 4, "all operations");
    found = inspected("[{\"op\":\"add\",\"path\":\"\",\"value\":0},{\"op\":\"add\"}]");
    expect(found.number == JSON_PATCH_WRONG_SHAPE && found.op == 2 && !found.text && !found.place, "8 at 2");
    expect(json_patch_inspection_operations(&found) == 0, "a refused patch has no counts");
    found = inspected("[1,]");
    expect(found.number == JSON_PATCH_NOT_JSON && found.text == JSON_PATCH_TEXT_PATCH && found.place == 3, "3 at 3");
    found = inspected(NULL);
    expect(found.number == JSON_PATCH_NOT_JSON && found.place == 0, "a null patch is empty");
    memset(&node, 0x55, sizeof node);
    expect(json_patch_inspect(empty, 2, &node, 1, index, 1, &found) ==
               JSON_PATCH_WORK_TOO_SHORT, "1");
    expect(index[0] == 7 && node.start == 0x5555, "after a 1 nothing has changed");
    if (failures) return 1;
    printf("the inspection: as expected\n");
    return 0;
}
