/* The cases of the standard input, under an operating system. The argument is the kind of
 * the file: plain, region, merge, undo or origins. */
#include "cases.h"

#include <stdio.h>
#include <string.h>

static const char *const kinds[] = {"plain", "region", "merge", "undo", "origins"};
static uint8_t file[1 << 26];

void say(const void *bytes, size_t length) { fwrite(bytes, 1, length, stdout); }

uint32_t call(request *r) { return make_call(r); }

int main(int count, char **words) {
    int kind = PLAIN;
    if (fread(file, 1, sizeof file, stdin) == sizeof file) return 2; /* the last byte stays zero */
    while (kind <= ORIGINS && (count != 2 || strcmp(words[1], kinds[kind]))) kind++;
    if (kind > ORIGINS || (kind == ORIGINS && !LISTED)) return 2;
    run_cases(file, (enum kind)kind);
    return 0;
}
