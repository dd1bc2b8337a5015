/* A worked example: a repair bench applies a pack maker's patch to the charge
 * profile of a pack. Compiled and run by examples/run.sh. */
#include "json_patch.h"

#include <stdio.h>
#include <string.h>

/* All the memory that the call needs. A bootloader would lend RAM that is not
 * in use yet; the contents before the call do not matter. */
static json_patch_work work;
static char output[1024];

static const char profile[] =
    "{\"pack\":\"NCR-3S3P\",\"mAh\":3000,\"cut\":[4.2,3.0],"
    "\"stages\":[{\"mA\":1500,\"mV\":4200},{\"mA\":150,\"mV\":4200}]}";

/* The maker lowers the upper cut-off, but only for packs of 3000 mAh, and adds
 * a rest between the two stages. */
static const char correction[] =
    "[{\"op\":\"test\",\"path\":\"/mAh\",\"value\":3e3},"
    "{\"op\":\"replace\",\"path\":\"/cut/0\",\"value\":4.15},"
    "{\"op\":\"add\",\"path\":\"/stages/1\",\"value\":{\"rest_s\":600}},"
    "{\"op\":\"add\",\"path\":\"/revised\",\"value\":\"24W18\"}]";

/* Applies and tells; the output is used only after a 0. */
static void bench(const char *what, const char *document, const char *patch, size_t room) {
    json_patch_answer answer;
    char words[128];
    json_patch_apply_with(document, strlen(document), patch, strlen(patch), output, room, &work, &answer);
    json_patch_describe(&answer, words, sizeof words);
    printf("%s:\n  %s\n", what, words);
    if (answer.number == JSON_PATCH_DONE) printf("  %.*s\n", (int)answer.length, output);
    if (answer.number == JSON_PATCH_NOT_JSON)
        printf("  sound as far as: %.*s\n", (int)answer.place, answer.text == JSON_PATCH_TEXT_DOCUMENT ? document : patch);
}

/* Whether all bytes from a place on are the same. */
static int all(const void *from, size_t length, unsigned char byte) {
    const unsigned char *bytes = (const unsigned char *)from;
    while (length--)
        if (*bytes++ != byte) return 0;
    return 1;
}

/* What the call promises of lent memory, looked at from outside. */
static int kept_its_promises(void) {
    static const char root[] = "[{\"op\":\"remove\",\"path\":\"\"}]";
    json_patch_answer answer;
    if (!all(&work, sizeof work, 0)) return 0;
    memset(output, '#', sizeof output);
    return json_patch_apply_with(profile, sizeof profile - 1, root, sizeof root - 1, output, sizeof output, &work, &answer) ==
               JSON_PATCH_REMOVE_OF_ROOT &&
           all(output, sizeof output, '#') && all(&work, sizeof work, 0);
}

int main(void) {
    memset(&work, 0xa5, sizeof work);
    bench("the maker's patch", profile, correction, sizeof output);
    bench("the same for a pack of 2600 mAh", "{\"mAh\":2600,\"cut\":[4.2,3.0],\"stages\":[]}", correction, sizeof output);
    bench("a patch cut short", profile, "[{\"op\":\"replace\",\"path\":\"/cut/0\",\"val", sizeof output);
    bench("a member that is not there", profile, "[{\"op\":\"replace\",\"path\":\"/stages/1/volts\",\"value\":4.15}]",
          sizeof output);
    bench("an output of 100 bytes", profile, correction, 100);
    printf("work area zero, output untouched by a refusal: %s\n", kept_its_promises() ? "yes" : "NO");
    return 0;
}
