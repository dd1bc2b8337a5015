/* JSON Pointers as links: RFC 6901, section 6, in lent memory.
 *
 * A link is `#` and the pointer's bytes: ASCII letters, digits and
 * -._~!$&'()*+,;=:@/? as they are, and each other byte as `%` and two
 * hexadecimal digits.
 *
 * Two functions, proved to answer as the definitions say on every input. They
 * allocate nothing, keep no state, need no work area and may be called from
 * several threads at once, each with an output of its own. Link with
 * target/staticlib/libfragment.a (made by `tools/staticlib.sh fragment`), beside
 * libjson_patch.a or without it; examples/link.c is a worked example.
 *
 * C99, and C++. */
#ifndef JSON_PATCH_LINK_H
#define JSON_PATCH_LINK_H

#include <stddef.h>
#include <stdint.h>

#ifdef __cplusplus
extern "C" {
#endif

/* Bytes of a link that is read. When writing there is no limit but the output. */
#define JSON_PATCH_MAX_LINK 32768

/* The number of an answer. */
enum json_patch_link_number {
    JSON_PATCH_LINK_DONE = 0,               /* done: length */
    JSON_PATCH_LINK_TOO_LONG = 2,           /* a link over 32,768 bytes */
    JSON_PATCH_LINK_MALFORMED_POINTER = 10, /* no pointer; when writing, also not UTF-8 */
    JSON_PATCH_LINK_OUTPUT_TOO_SHORT = 16,  /* the written text is longer than the output */
    JSON_PATCH_LINK_BAD = 22                /* no link, or its bytes are not UTF-8 */
};

/* The answer: the fields that every call's answer has. The four in the middle
 * are 0, and so is the length after a refusal. */
typedef struct json_patch_link_answer {
    uint64_t number;  /* 0, or that of the refusal */
    uint64_t text;    /* 0 */
    uint64_t op;      /* 0 */
    uint64_t place;   /* 0 */
    uint64_t pointer; /* 0 */
    uint64_t length;  /* the written length, 0 on refusal */
} json_patch_link_answer;

/* Writes the link of a pointer to the output, or refuses: 10, then 16. Returns
 * the answer's number, which is also answer->number.
 *
 * After a refusal the output is unchanged; after a 0 its first bytes are the
 * link and the rest is unchanged.
 *
 * Of both functions the caller owes what C owes any function of pointers and
 * lengths: each pointer is not null, even where its length is 0, is aligned for
 * its type, and points to as many bytes as its length says; the output and the
 * answer overlap neither one another nor the input. */
uint32_t json_patch_write_link(const uint8_t *pointer, size_t pointer_length,
                               uint8_t *output, size_t output_length,
                               json_patch_link_answer *answer);

/* Writes the pointer of a link to the output, or refuses: 2 for a link over
 * 32,768 bytes; 22 for no `#` in front, a byte that is not one of those above, a
 * `%` without two hexadecimal digits, of either case, behind it, or bytes that
 * are not UTF-8; then 10; then 16. The pointer is as it is written, with its ~0
 * and ~1. Else as above. */
uint32_t json_patch_read_link(const uint8_t *link, size_t link_length,
                              uint8_t *output, size_t output_length,
                              json_patch_link_answer *answer);

#ifdef __cplusplus
}
#endif

#endif
