/* Pointers written as links, and links read. */
#include "json_patch_link.h"

#include <stdio.h>
#include <string.h>

static void print(const char *way, const char *text, const json_patch_link_answer *answer,
                  const uint8_t *output)
{
    printf("%s %s: ", way, text);
    if (answer->number == JSON_PATCH_LINK_DONE) {
        printf("%.*s\n", (int)answer->length, (const char *)output);
    } else {
        printf("refused %d\n", (int)answer->number);
    }
}

static void try_both(const char *text)
{
    uint8_t output[64];
    json_patch_link_answer answer;

    json_patch_write_link((const uint8_t *)text, strlen(text), output, sizeof output, &answer);
    print("write", text, &answer, output);
    json_patch_read_link((const uint8_t *)text, strlen(text), output, sizeof output, &answer);
    print("read", text, &answer, output);
}

int main(void)
{
    try_both("/cut/0");
    try_both("#/cut/0");
    try_both("/a b");
    try_both("#/a%20b");
    try_both("#/%4");
    try_both("#/~");
    return 0;
}
