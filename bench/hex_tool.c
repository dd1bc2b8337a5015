/* Standard input written as Intel HEX, or read: `hex write`, `hex read`. For bench/hex_tools.sh. */
#include "json_patch_hex.h"

#include <stdio.h>
#include <string.h>

static uint8_t input[4194304], output[4194304];

int main(int argc, char **argv)
{
    json_patch_hex_answer answer;
    size_t n = fread(input, 1, sizeof input, stdin);
    int writing = argc == 2 && strcmp(argv[1], "write") == 0;
    uint32_t number = writing ? json_patch_write_hex(input, n, output, sizeof output, &answer)
                              : json_patch_read_hex(input, n, output, sizeof output, &answer);
    if (number != 0) {
        fprintf(stderr, "refused %u place %u\n", (unsigned)number, (unsigned)answer.place);
        return 1;
    }
    return fwrite(output, 1, answer.length, stdout) != answer.length;
}
