/* A JSON Patch inspected: read and shaped without a document, and its operations
 * counted, in lent memory.
 *
 *     static json_patch_work work;
 *     json_patch_inspection found;
 *     if (json_patch_inspect_with(patch, patch_length, &work, &found) == 0)
 *         printf("%llu tests\n", (unsigned long long)found.tests);
 *
 * The function is proved to answer as the definitions say on every input. It
 * allocates nothing, keeps no state and may be called from several threads at
 * once, each with buffers of its own. Link with target/staticlib/libinspect.a
 * (made by `tools/staticlib.sh inspect`), beside libjson_patch.a or without it.
 *
 * C99, and C++. */
#ifndef JSON_PATCH_INSPECT_H
#define JSON_PATCH_INSPECT_H

#include "json_patch.h"

#ifdef __cplusplus
extern "C" {
#endif

/* What a patch comes to. A field that its number does not set is 0, and so are
 * all counts on refusal. */
typedef struct json_patch_inspection {
    uint64_t number;   /* 0, or that of the refusal: 1 to 10 or 14 */
    uint64_t text;     /* 2 for a refusal of the patch's text, else 0 */
    uint64_t op;       /* the operation, counted from 1, else 0 */
    uint64_t place;    /* a byte offset in the patch, else 0 */
    uint64_t adds;     /* how many operations are an add, */
    uint64_t removes;  /* a remove, */
    uint64_t replaces; /* a replace, */
    uint64_t moves;    /* a move, */
    uint64_t copies;   /* a copy, */
    uint64_t tests;    /* a test: at most 256 in all */
} json_patch_inspection;

/* Reads the patch and judges the shape of every operation, as json_patch_apply
 * does, and counts the operations, or refuses: 1, 2, the reading (3 to 7), the
 * shape (8, 9, 10, 14). Where a patch is refused here, json_patch_apply refuses
 * it for every document that it accepts, with the same number, text, op and
 * place. Returns the number, which is also found->number.
 *
 * nodes and index are the work area, as json_patch_apply takes it: at least
 * JSON_PATCH_WORK_NODES records and JSON_PATCH_WORK_ENTRIES entries, which may
 * hold anything. After a 1 nothing has changed. After any other answer the work
 * area is all zero; where a list is longer than stated, the part beyond is
 * unchanged. The patch is only read.
 *
 * The caller owes what C owes any function of pointers and lengths: each pointer
 * is not null, even where its length is 0, is aligned for its type, and points
 * to as many bytes, records or entries as its length or count says; the two
 * lists and the answer overlap neither one another nor the patch. */
uint32_t json_patch_inspect(const uint8_t *patch, size_t patch_length,
                            json_patch_node *nodes, size_t nodes_count,
                            uint16_t *index, size_t index_count,
                            json_patch_inspection *found);

/* json_patch_inspect in a work area. The patch may be null where its length is 0. */
static inline uint32_t json_patch_inspect_with(const void *patch, size_t patch_length,
                                               json_patch_work *work, json_patch_inspection *found) {
    uint8_t none = 0;
    return json_patch_inspect(patch_length ? JSON_PATCH_AS_(const uint8_t *, patch) : &none, patch_length,
                              work->nodes, JSON_PATCH_WORK_NODES, work->index, JSON_PATCH_WORK_ENTRIES, found);
}

/* All operations together. */
static inline uint64_t json_patch_inspection_operations(const json_patch_inspection *found) {
    return found->adds + found->removes + found->replaces + found->moves + found->copies + found->tests;
}

#ifdef __cplusplus
}
#endif

#endif
