/* Two JSON texts compared: equal or different, and how many names were compared
 * for it, in lent memory.
 *
 *     static json_patch_work work;
 *     json_patch_comparison found;
 *     if (json_patch_compare_with(first, first_length, second, second_length, &work, &found) == 0)
 *         puts(found.equal ? "equal" : "different");
 *
 * The function is proved to answer as the definitions say on every input. It
 * allocates nothing, keeps no state and may be called from several threads at
 * once, each with buffers of its own. Link with target/staticlib/libcompare.a
 * (made by `tools/staticlib.sh compare`), beside libjson_patch.a or without it.
 *
 * C99, and C++. */
#ifndef JSON_PATCH_COMPARE_H
#define JSON_PATCH_COMPARE_H

#include "json_patch.h"

#ifdef __cplusplus
extern "C" {
#endif

/* What two texts come to. A field that its number does not set is 0, and so are
 * equal and names on refusal. */
typedef struct json_patch_comparison {
    uint64_t number; /* 0, or that of the refusal: 1 to 7 */
    uint64_t text;   /* 1 or 2 for a refusal of that text, else 0 */
    uint64_t place;  /* a byte offset in it, else 0 */
    uint64_t equal;  /* 1 where the two values are equal, else 0 */
    uint64_t names;  /* how many names were compared: at most 4,190,209 */
} json_patch_comparison;

/* Reads both texts and compares their values, or refuses: 1, 2 (the first text,
 * then the second), the reading of the first, the reading of the second (3 to
 * 7). Values are equal as a test in a patch has it: numbers by exact value,
 * strings by their unescaped text, members in any order. Returns the number,
 * which is also found->number; a 0 says that both were read, and found->equal
 * whether they are equal.
 *
 * names counts as SPECIFICATION 17 does: the first text's members lead, in order, each
 * against the second one's names from the first until one matches, their two
 * values then at once; all stops at the first difference; unequal member counts
 * or array lengths differ without a comparison. For values of a and b nodes it is
 * at most a times b. The work itself is linear, in whatever order members stand.
 *
 * nodes and index are the work area, as json_patch_apply takes it: at least
 * JSON_PATCH_WORK_NODES records and JSON_PATCH_WORK_ENTRIES entries, which may
 * hold anything. After a 1 nothing has changed. After any other answer the work
 * area is all zero; where a list is longer than stated, the part beyond is
 * unchanged. The texts are only read, and may overlap.
 *
 * The caller owes what C owes any function of pointers and lengths: each pointer
 * is not null, even where its length is 0, is aligned for its type, and points
 * to as many bytes, records or entries as its length or count says; the two
 * lists and the answer overlap neither one another nor the texts. */
uint32_t json_patch_compare(const uint8_t *first, size_t first_length,
                            const uint8_t *second, size_t second_length,
                            json_patch_node *nodes, size_t nodes_count,
                            uint16_t *index, size_t index_count,
                            json_patch_comparison *found);

/* json_patch_compare in a work area. A text may be null where its length is 0. */
static inline uint32_t json_patch_compare_with(const void *first, size_t first_length,
                                               const void *second, size_t second_length,
                                               json_patch_work *work, json_patch_comparison *found) {
    uint8_t none = 0;
    return json_patch_compare(first_length ? JSON_PATCH_AS_(const uint8_t *, first) : &none, first_length,
                              second_length ? JSON_PATCH_AS_(const uint8_t *, second) : &none, second_length,
                              work->nodes, JSON_PATCH_WORK_NODES, work->index, JSON_PATCH_WORK_ENTRIES, found);
}

#ifdef __cplusplus
}
#endif

#endif
