/* A worked example: a repair bench applies a pack maker's patch to the charge
 * profile of a pack, keeps the undo beside it, and takes the patch back. Compiled
 * and run by examples/run.sh. */
#include "json_patch.h"

#include <stdio.h>
#include <string.h>

/* All the memory that the call with an undo needs. The contents before the call do
 * not matter. The undo of a patch has at most JSON_PATCH_MAX_BYTES bytes; a short
 * patch on a short document needs less. */
static json_patch_undo_work work;
static char output[1024], undo[1024], before[1024];

static const char profile[] = "{\"mAh\":3000,\"cut\":[4.2,3.0],\"maker\":{\"name\":\"N/A\"}}";

/* The maker raises the capacity, appends a cut-off, and moves the name up. */
static const char correction[] =
    "[{\"op\":\"replace\",\"path\":\"/mAh\",\"value\":3200},"
    "{\"op\":\"add\",\"path\":\"/cut/-\",\"value\":2.8},"
    "{\"op\":\"move\",\"from\":\"/maker/name\",\"path\":\"/maker\"}]";

/* Applies and tells; the outputs are used only after a 0. */
static int bench(const char *what, const char *document, const char *patch, size_t room, json_patch_undo_answer *answer) {
    char words[128];
    json_patch_undo_with(document, strlen(document), patch, strlen(patch), output, sizeof output, undo, room, &work, answer);
    json_patch_undo_describe(answer, strlen(patch), words, sizeof words);
    printf("%s:\n  %s\n", what, words);
    return answer->answer.number == JSON_PATCH_DONE;
}

/* A document of so many arrays in one another. */
static const char *nested(char *text, size_t levels) {
    memset(text, '[', levels);
    memset(text + levels, ']', levels);
    text[2 * levels] = '\0';
    return text;
}

int main(void) {
    static const char everything[] = "[{\"op\":\"replace\",\"path\":\"\",\"value\":null}]";
    json_patch_undo_answer answer;
    json_patch_answer back;
    char deep[80];
    size_t length;

    memset(&work, 0xa5, sizeof work);
    if (bench("the maker's patch", profile, correction, sizeof undo, &answer)) {
        printf("  %.*s\n  %.*s\n", (int)answer.answer.length, output, (int)answer.undo, undo);
        json_patch_apply_with(output, answer.answer.length, undo, answer.undo, before, sizeof before, &work.work, &back);
        printf("taken back:\n  %.*s\n", (int)back.length, before);
    }
    bench("an undo output of 100 bytes", profile, correction, 100, &answer);
    bench("a value 30 deep replaced", nested(deep, 30), everything, sizeof undo, &answer);
    bench("a value 31 deep replaced", nested(deep, 31), everything, sizeof undo, &answer);
    bench("a member that is not there", "{}", correction, sizeof undo, &answer);
    for (length = 0; length < sizeof work && ((const unsigned char *)&work)[length] == 0;) length++;
    printf("work area zero: %s\n", length == sizeof work ? "yes" : "NO");
    return 0;
}
