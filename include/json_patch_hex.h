/* A text as Intel HEX, written and read, in lent memory.
 *
 * One record a line: a colon, and in hexadecimal digits the number of bytes of
 * data, an address in two bytes, a type, the data, and a byte that makes the sum
 * of all zero modulo 256.
 *
 * Two functions, proved to answer as the definitions say on every input. They
 * allocate nothing, keep no state, need no work area and may be called from
 * several threads at once, each with an output of its own. Link with
 * target/staticlib/libhex.a (made by `tools/staticlib.sh hex`), beside libjson_patch.a
 * or without it.
 *
 * C99, and C++. */
#ifndef JSON_PATCH_HEX_H
#define JSON_PATCH_HEX_H

#include <stddef.h>
#include <stdint.h>

#ifdef __cplusplus
extern "C" {
#endif

/* Bytes of a text. */
#define JSON_PATCH_HEX_MAX_TEXT 65536

/* Bytes of a text of n bytes as records; of the longest one 180,236. */
#define JSON_PATCH_HEX_LENGTH(n) (((size_t)(n) + 15) / 16 * 12 + 2 * (size_t)(n) + 12)

/* The number of an answer. 18 to 21 set place, the line, counted from 1. */
enum json_patch_hex_number {
    JSON_PATCH_HEX_DONE = 0,              /* done: length */
    JSON_PATCH_HEX_TOO_LONG = 2,          /* a text over 65,536 bytes */
    JSON_PATCH_HEX_OUTPUT_TOO_SHORT = 16, /* the written text is longer than the output */
    JSON_PATCH_HEX_NOT_A_RECORD = 18,     /* no record of type 00 or 01: place */
    JSON_PATCH_HEX_WRONG_SUM = 19,        /* the sum is not zero modulo 256: place */
    JSON_PATCH_HEX_WRONG_ADDRESS = 20,    /* the address is not the next, or past 65,536 bytes: place */
    JSON_PATCH_HEX_WRONG_END = 21         /* anything after the end record, or no end record: place */
};

/* The answer: the fields that every call's answer has. */
typedef struct json_patch_hex_answer {
    uint64_t number;  /* 0, or that of the refusal */
    uint64_t text;    /* 0 */
    uint64_t op;      /* 0 */
    uint64_t place;   /* the line, else 0 */
    uint64_t pointer; /* 0 */
    uint64_t length;  /* the written length, 0 on refusal */
} json_patch_hex_answer;

/* Writes a text as data records of 16 bytes, the last shorter, from address 0,
 * in upper case, and the end record, each line ended by a line feed; or refuses:
 * 2 for a text over 65,536 bytes, then 16. Returns the answer's number, which is
 * also answer->number.
 *
 * After a refusal the output is unchanged; after a 0 its first bytes are the
 * written text and the rest is unchanged.
 *
 * Of both functions the caller owes what C owes any function of pointers and
 * lengths: each pointer is not null, even where its length is 0, is aligned for
 * its type, and points to as many bytes as its length says; the output and the
 * answer overlap neither one another nor the input. */
uint32_t json_patch_write_hex(const uint8_t *text, size_t text_length,
                              uint8_t *output, size_t output_length,
                              json_patch_hex_answer *answer);

/* Writes the text of Intel HEX to the output: data records of 1 to 255 bytes
 * that follow on from address 0, then the end record; digits of either case; a
 * line feed, or a carriage return and a line feed, after each line, which the
 * last may lack. Or refuses, at the first line that is wrong, by the first of:
 * 21 a line after the end record; 18 no record; 19; 20; 21 one past the last
 * line where there is no end record. Then 16. Else as above. */
uint32_t json_patch_read_hex(const uint8_t *hex, size_t hex_length,
                             uint8_t *output, size_t output_length,
                             json_patch_hex_answer *answer);

#ifdef __cplusplus
}
#endif

#endif
