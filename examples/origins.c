/* A worked example: a repair bench applies a maker's patch to the charge profile of a
 * pack and asks of every value which operation put it there. Compiled and run by
 * examples/run.sh. */
#include "json_patch.h"

#include <stdio.h>
#include <string.h>

static json_patch_work work;
static char output[1024];

static const char profile[] = "{\"mAh\":3000,\"cut\":[4.2,3.0],\"maker\":{\"name\":\"N/A\"}}";

/* The maker checks the capacity, raises it, copies the cut-offs, lowers the copy's first
 * one, and moves the name up. */
static const char correction[] =
    "[{\"op\":\"test\",\"path\":\"/mAh\",\"value\":3e3},"
    "{\"op\":\"replace\",\"path\":\"/mAh\",\"value\":3200},"
    "{\"op\":\"copy\",\"from\":\"/cut\",\"path\":\"/cold\"},"
    "{\"op\":\"replace\",\"path\":\"/cold/0\",\"value\":4.1},"
    "{\"op\":\"move\",\"from\":\"/maker/name\",\"path\":\"/maker\"}]";

/* The same as a merge patch, which counts as operation 1. */
static const char merge[] = "{\"mAh\":3200,\"maker\":{\"name\":\"acme\"},\"cold\":{\"cut\":[4.1]}}";

/* The result, and its values' origins in the order of their first written bytes. */
static void told(const char *what, const json_patch_answer *answer, const uint16_t *origins) {
    const size_t values = json_patch_values(output, answer->length);
    char words[128];
    size_t k;
    json_patch_describe(answer, words, sizeof words);
    printf("%s:\n  %s\n", what, words);
    if (answer->number != JSON_PATCH_DONE) return;
    printf("  %.*s\n ", (int)answer->length, output);
    for (k = 0; k < values; k++) printf(" %u", (unsigned)origins[k]);
    printf("\n");
}

int main(void) {
    uint16_t origins[JSON_PATCH_MAX_NODES]; /* long enough for any result */
    json_patch_answer answer;
    json_patch_apply_origins_with(profile, strlen(profile), correction, strlen(correction), output, sizeof output,
                                  origins, JSON_PATCH_MAX_NODES, &work, &answer);
    told("the maker's patch", &answer, origins);
    json_patch_merge_origins_with(profile, strlen(profile), merge, strlen(merge), output, sizeof output,
                                  origins, JSON_PATCH_MAX_NODES, &work, &answer);
    told("a merge patch", &answer, origins);
    json_patch_apply_origins_with(profile, strlen(profile), correction, strlen(correction), output, sizeof output,
                                  origins, 8, &work, &answer);
    told("a list of 8 entries", &answer, origins);
    return 0;
}
