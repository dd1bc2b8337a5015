/* The calls that list origins, through the header: each call's list, its rest, a list
 * that is just long enough, one entry short or none at all, and the lent memory. */
#include "json_patch.h"

#include <stdio.h>
#include <string.h>

#define UNWRITTEN 0xabcd

static json_patch_undo_work work;
static char output[256], undo[256];
static uint16_t origins[16];
static int failed;

static void expect(int held, const char *what) {
    if (!held) {
        printf("FAILED: %s\n", what);
        failed = 1;
    }
}

static void before(void) {
    size_t k;
    memset(&work, 0xa5, sizeof work);
    memset(output, '#', sizeof output);
    memset(undo, '#', sizeof undo);
    for (k = 0; k < sizeof origins / sizeof *origins; k++) origins[k] = UNWRITTEN;
}

/* The list is that of the digits, and its rest is as it was. */
static void listed(const char *digits, const char *what) {
    const size_t count = strlen(digits);
    size_t k;
    for (k = 0; k < count; k++) expect(origins[k] == digits[k] - '0', what);
    for (; k < sizeof origins / sizeof *origins; k++) expect(origins[k] == UNWRITTEN, "the list's rest stays");
}

static void cleared(void) {
    size_t k;
    const unsigned char *bytes = JSON_PATCH_AS_(const unsigned char *, JSON_PATCH_AS_(const void *, &work));
    for (k = 0; k < sizeof work.work && bytes[k] == 0;) k++;
    expect(k == sizeof work.work, "the work area is cleared");
}

static void written(const json_patch_answer *answer, const char *text) {
    const size_t length = strlen(text);
    expect(answer->number == JSON_PATCH_DONE && answer->length == length, text);
    expect(memcmp(output, text, length) == 0 && output[length] == '#', text);
    cleared();
}

static void short_of_room(const json_patch_answer *answer, const char *what) {
    expect(answer->number == JSON_PATCH_OUTPUT_TOO_SHORT && answer->length == 0 && answer->op == 0, what);
    expect(output[0] == '#' && undo[0] == '#', "a refusal leaves the outputs");
    listed("", what);
    cleared();
}

static const char profile[] = "{\"mAh\":3000,\"cut\":[4.2,3.0]}";
static const char result[] = "{\"mAh\":3100,\"cut\":[4.2,3.0],\"old\":[4.2,3.0]}";
static const char patch[] = "[{\"op\":\"test\",\"path\":\"/mAh\",\"value\":3e3},"
                            "{\"op\":\"replace\",\"path\":\"/mAh\",\"value\":3100},"
                            "{\"op\":\"copy\",\"from\":\"/cut\",\"path\":\"/old\"}]";

static void plain(void) {
    json_patch_answer answer;
    before();
    json_patch_apply_origins_with(profile, strlen(profile), patch, strlen(patch), output, sizeof output,
                                  origins, 16, &work.work, &answer);
    written(&answer, result);
    listed("02000333", "the plain call");
    before();
    json_patch_apply_origins_with(profile, strlen(profile), patch, strlen(patch), output, strlen(result),
                                  origins, 8, &work.work, &answer);
    written(&answer, result);
    listed("02000333", "a list that is just long enough");
    before();
    json_patch_apply_origins_with(profile, strlen(profile), patch, strlen(patch), output, sizeof output,
                                  origins, 7, &work.work, &answer);
    short_of_room(&answer, "a list that is an entry short");
    before();
    json_patch_apply_origins_with(profile, strlen(profile), patch, strlen(patch), output, strlen(result) - 1,
                                  origins, 16, &work.work, &answer);
    short_of_room(&answer, "an output that is a byte short");
    before();
    json_patch_apply_origins_with("1", 1, "[]", 2, output, sizeof output, NULL, 0, &work.work, &answer);
    short_of_room(&answer, "no list");
    before();
    json_patch_apply_origins_with(profile, strlen(profile), "[", 1, output, sizeof output, origins, 16, &work.work, &answer);
    expect(answer.number == JSON_PATCH_NOT_JSON && answer.text == JSON_PATCH_TEXT_PATCH && answer.place == 1, "not JSON");
    listed("", "a refusal lists nothing");
    before();
    expect(json_patch_apply_origins(JSON_PATCH_AS_(const uint8_t *, JSON_PATCH_AS_(const void *, "1")), 1,
                                    JSON_PATCH_AS_(const uint8_t *, JSON_PATCH_AS_(const void *, "[]")), 2,
                                    JSON_PATCH_AS_(uint8_t *, JSON_PATCH_AS_(void *, output)), sizeof output, origins, 16,
                                    work.work.nodes, JSON_PATCH_WORK_NODES - 1,
                                    work.work.index, JSON_PATCH_WORK_ENTRIES, &answer) == JSON_PATCH_WORK_TOO_SHORT,
           "a work area that is a record short");
    listed("", "a 1 lists nothing");
    expect(work.work.nodes[0].span == 0xa5a5 && output[0] == '#', "a 1 changes nothing");
}

static void within(void) {
    static const char makers[] = "[{\"op\":\"test\",\"path\":\"/cut/0\",\"value\":4.2},"
                                 "{\"op\":\"add\",\"path\":\"/cut/-\",\"value\":[]}]";
    json_patch_answer answer;
    before();
    json_patch_apply_within_origins_with(profile, strlen(profile), makers, strlen(makers), "/cut", 4, output,
                                         sizeof output, origins, 6, &work.work, &answer);
    written(&answer, "{\"mAh\":3000,\"cut\":[4.2,3.0,[]]}");
    listed("000002", "the call with a region");
    before();
    json_patch_apply_within_origins_with(profile, strlen(profile), makers, strlen(makers), "/cut", 4, output,
                                         sizeof output, origins, 5, &work.work, &answer);
    short_of_room(&answer, "a short list with a region");
    before();
    json_patch_apply_within_origins_with(profile, strlen(profile), makers, strlen(makers), "/mAh", 4, output,
                                         sizeof output, origins, 16, &work.work, &answer);
    expect(answer.number == JSON_PATCH_NOT_PERMITTED && answer.op == 1, "not permitted");
    listed("", "what is not permitted lists nothing");
}

static void merged(void) {
    static const char merge[] = "{\"mAh\":null,\"maker\":{\"name\":\"acme\",\"lot\":{\"old\":null}}}";
    json_patch_answer answer;
    before();
    json_patch_merge_origins_with(profile, strlen(profile), merge, strlen(merge), output, sizeof output,
                                  origins, 7, &work.work, &answer);
    written(&answer, "{\"cut\":[4.2,3.0],\"maker\":{\"name\":\"acme\",\"lot\":{}}}");
    listed("0000111", "the call for merge patches");
    before();
    json_patch_merge_origins_with(profile, strlen(profile), merge, strlen(merge), output, sizeof output,
                                  origins, 6, &work.work, &answer);
    short_of_room(&answer, "a short list with a merge patch");
    before();
    json_patch_merge_origins_with("[1]", 3, "{}", 2, output, sizeof output, origins, 16, &work.work, &answer);
    written(&answer, "{}");
    listed("1", "a target that is no object");
}

static void undone(void) {
    static const char back[] = "[{\"op\":\"remove\",\"path\":\"/old\"},{\"op\":\"replace\",\"path\":\"/mAh\",\"value\":3000}]";
    static const char whole[] = "[{\"op\":\"replace\",\"path\":\"\",\"value\":1}]";
    char deep[63];
    json_patch_undo_answer answer;
    size_t k;
    before();
    json_patch_undo_origins_with(profile, strlen(profile), patch, strlen(patch), output, sizeof output,
                                 undo, strlen(back), origins, 8, &work, &answer);
    written(&answer.answer, result);
    expect(answer.undo == strlen(back) && memcmp(undo, back, strlen(back)) == 0 && undo[answer.undo] == '#', back);
    listed("02000333", "the call with an undo");
    for (k = 0; k < sizeof work.text && work.text[k] == 0;) k++;
    expect(k == sizeof work.text, "the buffer is cleared");
    before();
    json_patch_undo_origins_with(profile, strlen(profile), patch, strlen(patch), output, sizeof output,
                                 undo, strlen(back) - 1, origins, 8, &work, &answer);
    short_of_room(&answer.answer, "an undo's output that is a byte short");
    memset(deep, '[', 31);
    memset(deep + 31, ']', 31);
    before();
    json_patch_undo_origins_with(deep, 62, whole, strlen(whole), output, sizeof output, undo, sizeof undo, origins, 1,
                                 &work, &answer);
    expect(answer.answer.number == JSON_PATCH_TOO_DEEP && json_patch_undo_refused(&answer, strlen(whole)), "refused undo");
    listed("", "an undo that is refused lists nothing");
    before();
    json_patch_undo_origins_with(deep, 62, whole, strlen(whole), output, sizeof output, undo, sizeof undo, NULL, 0,
                                 &work, &answer);
    short_of_room(&answer.answer, "a short list comes before the undo's refusals");
}

int main(void) {
    plain();
    within();
    merged();
    undone();
    if (!failed) puts("origins: ok");
    return failed;
}
