/* A JSON Patch (RFC 6902) applied to a JSON document, in lent memory.
 *
 *     static json_patch_work work;
 *     json_patch_answer answer;
 *     json_patch_apply_with(document, document_length, patch, patch_length,
 *                           output, sizeof output, &work, &answer);
 *
 * The call is json_patch_apply, proved to answer as the definitions say on every
 * input. json_patch_apply_with_undo does the same and also writes a patch that
 * takes the result back, and json_patch_merge applies a merge patch (RFC 7396).
 * Each call has a twin with `_origins` in its name, which also lists for every
 * value of the result which operation put it there. All are proved. They allocate
 * nothing, keep no state and may be called from several threads at once, each with
 * buffers of its own.
 * Three small functions look at one record of the work area and clear it; they
 * are proved too. The inline functions are not part of the proof: one work area
 * in place of buffers, words for an answer, the parts of a record's tags.
 *
 * Link with -ljson_patch (`pkg-config --cflags --libs json_patch`), which has all
 * of them. As tools/staticlib.sh makes them, json_patch_apply is in
 * target/staticlib/libjson_patch.a (`tools/staticlib.sh json_patch`),
 * json_patch_apply_with_undo in target/staticlib/libundo.a (`tools/staticlib.sh undo`),
 * json_patch_merge in target/staticlib/libmerge.a (`tools/staticlib.sh merge`), the
 * four that list origins in liblisting.a, libregion_listing.a, libmerge_listing.a
 * and libundo_listing.a, and json_patch_node_read, _store and _clear are in
 * target/staticlib/librecord.a (`tools/staticlib.sh record`). The library needs memcpy
 * and memset and nothing else. examples/apply.c, examples/undo.c and
 * examples/origins.c are worked examples, json_patch(3) is the manual.
 *
 * C99, and C++. */
#ifndef JSON_PATCH_H
#define JSON_PATCH_H

#include <stddef.h>
#include <stdint.h>

#ifdef __cplusplus
extern "C" {
#endif

/* The version of this header and of its library. */
#define JSON_PATCH_VERSION "0.2.0"

/* The work area: records of 16 bytes, and entries of 2. 114,688 bytes in all. */
#define JSON_PATCH_WORK_NODES 6144
#define JSON_PATCH_WORK_ENTRIES 8192

/* The buffer that the call with an undo takes beside it, in bytes. */
#define JSON_PATCH_UNDO_BYTES 32768

/* The numbers that bound the work. */
#define JSON_PATCH_MAX_BYTES 32768    /* bytes of a document, and of a patch */
#define JSON_PATCH_MAX_DEPTH 32       /* nested containers */
#define JSON_PATCH_MAX_NODES 2048     /* values in a document, and in a patch text */
#define JSON_PATCH_MAX_NUMBER 128     /* bytes of a number */
#define JSON_PATCH_MAX_EXPONENT 9999  /* the size of a number's written exponent */
#define JSON_PATCH_MAX_OPERATIONS 256 /* operations of a patch */

/* The output that the patch tool lends. */
#define JSON_PATCH_TOOL_OUTPUT 65536

/* The number of an answer: when it is given, and the fields that it sets. */
enum json_patch_number {
    JSON_PATCH_DONE = 0,                /* done: length */
    JSON_PATCH_WORK_TOO_SHORT = 1,      /* a work buffer is shorter than stated */
    JSON_PATCH_INPUT_TOO_LONG = 2,      /* an input is too long, document first: text (0 for a region) */
    JSON_PATCH_NOT_JSON = 3,            /* not JSON text: text, place */
    JSON_PATCH_REPEATED_NAME = 4,       /* a member name repeated in one object: text, place */
    JSON_PATCH_TOO_DEEP = 5,            /* more than 32 nested: text, place; or op */
    JSON_PATCH_TOO_MANY_NODES = 6,      /* more than 2,048 nodes: text, place; or op */
    JSON_PATCH_NUMBER_OVER_LIMIT = 7,   /* number over its limit: text, place */
    JSON_PATCH_WRONG_SHAPE = 8,         /* patch not of the right shape: op */
    JSON_PATCH_TOO_MANY_OPERATIONS = 9, /* more than 256 operations */
    JSON_PATCH_MALFORMED_POINTER = 10,  /* malformed pointer: op (0 for a region) */
    JSON_PATCH_LOCATION_MISSING = 11,   /* location missing: op, place, pointer */
    JSON_PATCH_NO_INDEX = 12,           /* token is no array index: op, place, pointer */
    JSON_PATCH_REMOVE_OF_ROOT = 13,     /* remove of the root: op */
    JSON_PATCH_MOVE_INTO_CHILD = 14,    /* move into its own child: op */
    JSON_PATCH_TEST_DIFFERS = 15,       /* test found a difference: op */
    JSON_PATCH_OUTPUT_TOO_SHORT = 16,   /* written text longer than the lent output, or a list of origins too short */
    JSON_PATCH_NOT_PERMITTED = 17       /* the rule of a region is broken: op */
};

/* The text that an answer speaks of. */
#define JSON_PATCH_TEXT_DOCUMENT 1
#define JSON_PATCH_TEXT_PATCH 2

/* The pointer that an answer speaks of: which member of the operation it is. */
#define JSON_PATCH_POINTER_PATH 1
#define JSON_PATCH_POINTER_FROM 2

/* The answer. A field that its number does not set is 0. With 11 and 12, place
 * is the count of tokens of that pointer walked before the one that failed. */
typedef struct json_patch_answer {
    uint64_t number;  /* 0, or that of the refusal */
    uint64_t text;    /* 1 document, 2 patch, else 0 */
    uint64_t op;      /* the operation, counted from 1, else 0 */
    uint64_t place;   /* a byte offset, or with 11 and 12 the tokens walked, else 0 */
    uint64_t pointer; /* with 11 and 12: 1 path, 2 from, else 0 */
    uint64_t length;  /* the written length, 0 on refusal */
} json_patch_answer;

/* A node of the work area: one value of the document or of the patch, in one
 * place. A tree lies in preorder, and a field without a meaning for a node is 0.
 * docs/WORK-AREA.md shows a document, record by record. */
typedef struct json_patch_node {
    uint16_t name_start;  /* where its name begins, in bytes, behind the quotation mark */
    uint16_t name_length; /* the name's bytes */
    uint16_t start;       /* where the text of a number or a string begins */
    uint16_t length;      /* the bytes of that text */
    uint16_t span;        /* how many nodes are below it, at every depth */
    uint16_t hash;        /* a hash of the name */
    uint16_t tags;        /* kind, form and source: json_patch_node_kind() and its neighbours */
    uint16_t origin;      /* the operation that put it there, else 0 (complete where origins are listed) */
} json_patch_node;

/* Applies the patch to the document and writes the result to the output, or
 * refuses. Returns the answer's number, which is also answer->number.
 *
 * nodes and index are the work area: JSON_PATCH_WORK_NODES records or more, and
 * JSON_PATCH_WORK_ENTRIES entries or more. They may hold anything before. After
 * a 1, no buffer has changed. After any other answer the work area is all zero;
 * where a list is longer than stated, the part beyond is unchanged. After a
 * refusal the output is unchanged; after a 0 its first bytes are the written
 * text and the rest is unchanged. The two inputs are only read.
 *
 * Order: 1, 2, the whole document read, the whole patch read, the shape of every
 * operation, the operations one after another, then 16. The first that applies
 * is given.
 *
 * The caller owes what C owes any function of pointers and lengths: each pointer
 * is not null, even where its length is 0, is aligned for its type, and points
 * to as many bytes, records or entries as its length or count says; the output,
 * the two lists and the answer overlap neither one another nor the inputs. */
uint32_t json_patch_apply(const uint8_t *document, size_t document_length,
                          const uint8_t *patch, size_t patch_length,
                          uint8_t *output, size_t output_length,
                          json_patch_node *nodes, size_t nodes_count,
                          uint16_t *index, size_t index_count,
                          json_patch_answer *answer);

/* Applies the patch of a pack maker within a region, which is a pointer given as
 * its text in UTF-8: no JSON string, and the empty one is the root. A maker sends
 * only test, replace and add; the first operation is a test; every path begins
 * with the region's tokens and has at least one more. What keeps that rule gets
 * the answer of json_patch_apply.
 *
 * Three refusals more: 2 with text 0 for a region over 32,768 bytes, after the two
 * texts' lengths; 10 with op 0 for a region that is malformed or not UTF-8, after
 * both texts are read; 17 where the rule is broken, with the op of that operation,
 * after its 8, 10 and 14, or with op 0 for a patch without operations. All else
 * is as above. In libregion_call.a (`tools/staticlib.sh region_call`), and in
 * -ljson_patch. */
uint32_t json_patch_apply_within(const uint8_t *document, size_t document_length,
                                 const uint8_t *patch, size_t patch_length,
                                 const uint8_t *region, size_t region_length,
                                 uint8_t *output, size_t output_length,
                                 json_patch_node *nodes, size_t nodes_count,
                                 uint16_t *index, size_t index_count,
                                 json_patch_answer *answer);

/* Applies a merge patch (RFC 7396, media type application/merge-patch+json) to the
 * document: a patch that is an object is merged member by member, a null member
 * removes, a target that is no object is taken as an empty one, and any other patch
 * replaces the whole. Existing members keep their position, new ones go last, in
 * the patch's order.
 *
 * Order of refusals: 1, 2, the whole document read, the whole patch read (3 to 7),
 * then 6 for a result of more than 2,048 nodes, with all other fields 0, then 16.
 * Nesting never passes its limit: a result is no deeper than the deeper of the two.
 * All else is as with json_patch_apply. In libmerge.a (`tools/staticlib.sh merge`), and
 * in -ljson_patch. */
uint32_t json_patch_merge(const uint8_t *document, size_t document_length,
                          const uint8_t *patch, size_t patch_length,
                          uint8_t *output, size_t output_length,
                          json_patch_node *nodes, size_t nodes_count,
                          uint16_t *index, size_t index_count,
                          json_patch_answer *answer);

/* The work area as one object. It may hold anything before a call and is all
 * zero after one, so it can be lent again and again. It is too large for a small
 * stack: make it static, or lend memory that is not in use yet. */
typedef struct json_patch_work {
    json_patch_node nodes[JSON_PATCH_WORK_NODES];
    uint16_t index[JSON_PATCH_WORK_ENTRIES];
} json_patch_work;

/* The answer of json_patch_apply_with_undo: that of the plain call, and the undo's
 * length, 0 on refusal. */
typedef struct json_patch_undo_answer {
    json_patch_answer answer;
    uint64_t undo;
} json_patch_undo_answer;

/* As json_patch_apply. Beside the result a patch is written to `undo` that takes it
 * back: applied to the result, if that is at most JSON_PATCH_MAX_BYTES bytes, with
 * buffers enough, it succeeds and gives a document equal to the one before; the
 * two differ in the order of members alone. An undo has at most
 * JSON_PATCH_MAX_BYTES bytes; it is `[]` where there is nothing to take back.
 *
 * work is a buffer of JSON_PATCH_UNDO_BYTES or more, in which the undo's text is
 * made. It is part of the work area: it may hold anything before, after a 1 it has
 * not changed, and after any other answer that many bytes of it are zero.
 *
 * Order of refusals: 1 for nodes, index or work; all others of json_patch_apply,
 * with 16 for a short output; then, for an undo that could not be read back as a
 * patch, 9, 5, 6 and 2, each with text 2 and all other fields 0; then 16 for a
 * short `undo`. A refusal leaves both outputs unchanged. */
uint32_t json_patch_apply_with_undo(const uint8_t *document, size_t document_length,
                                    const uint8_t *patch, size_t patch_length,
                                    uint8_t *output, size_t output_length,
                                    uint8_t *undo, size_t undo_length,
                                    json_patch_node *nodes, size_t nodes_count,
                                    uint16_t *index, size_t index_count,
                                    uint8_t *work, size_t work_length,
                                    json_patch_undo_answer *answer);

/* The work area of the call with an undo as one object: 147,456 bytes. */
typedef struct json_patch_undo_work {
    json_patch_work work;
    uint8_t text[JSON_PATCH_UNDO_BYTES];
} json_patch_undo_work;

/* Which operation put this here? As json_patch_apply. Beside the result the origins of
 * its values are written to `origins`, one for each value in the order of their first
 * written bytes: each container before what is in it, members in order. An origin is 0
 * for a value from the document, and k for one that operation k put in, be it by add,
 * replace or copy, and for all values in it. A moved value keeps its own, and a
 * container keeps its origin when a child changes. So an origin is at most
 * JSON_PATCH_MAX_OPERATIONS.
 *
 * origins_count is in entries. JSON_PATCH_MAX_NODES entries always suffice. After a 0
 * the list's first entries are the origins, as many as the result has values
 * (json_patch_values counts them), and the rest is unchanged; after a refusal all of it
 * is unchanged. A list that is too short is refused with 16, as a short output is, and
 * nothing is written then.
 * In liblisting.a (`tools/staticlib.sh listing`), and in -ljson_patch. */
uint32_t json_patch_apply_origins(const uint8_t *document, size_t document_length,
                                  const uint8_t *patch, size_t patch_length,
                                  uint8_t *output, size_t output_length,
                                  uint16_t *origins, size_t origins_count,
                                  json_patch_node *nodes, size_t nodes_count,
                                  uint16_t *index, size_t index_count,
                                  json_patch_answer *answer);

/* The same for the patch of a pack maker: json_patch_apply_within with the origins
 * listed. In libregion_listing.a (`tools/staticlib.sh region_listing`), and in
 * -ljson_patch. */
uint32_t json_patch_apply_within_origins(const uint8_t *document, size_t document_length,
                                         const uint8_t *patch, size_t patch_length,
                                         const uint8_t *region, size_t region_length,
                                         uint8_t *output, size_t output_length,
                                         uint16_t *origins, size_t origins_count,
                                         json_patch_node *nodes, size_t nodes_count,
                                         uint16_t *index, size_t index_count,
                                         json_patch_answer *answer);

/* The same for a merge patch: json_patch_merge with the origins listed. A merge patch
 * counts as operation 1, also for the objects that it makes; an object of the document
 * that is merged into keeps its 0. In libmerge_listing.a
 * (`tools/staticlib.sh merge_listing`), and in -ljson_patch. */
uint32_t json_patch_merge_origins(const uint8_t *document, size_t document_length,
                                  const uint8_t *patch, size_t patch_length,
                                  uint8_t *output, size_t output_length,
                                  uint16_t *origins, size_t origins_count,
                                  json_patch_node *nodes, size_t nodes_count,
                                  uint16_t *index, size_t index_count,
                                  json_patch_answer *answer);

/* The same with an undo: json_patch_apply_with_undo with the origins of the result
 * listed. 16 for a short list comes with that for a short output, before the undo's own
 * refusals; each refusal leaves both outputs and the list unchanged. In
 * libundo_listing.a (`tools/staticlib.sh undo_listing`), and in -ljson_patch. */
uint32_t json_patch_apply_with_undo_origins(const uint8_t *document, size_t document_length,
                                            const uint8_t *patch, size_t patch_length,
                                            uint8_t *output, size_t output_length,
                                            uint8_t *undo, size_t undo_length,
                                            uint16_t *origins, size_t origins_count,
                                            json_patch_node *nodes, size_t nodes_count,
                                            uint16_t *index, size_t index_count,
                                            uint8_t *work, size_t work_length,
                                            json_patch_undo_answer *answer);

/* The rows of the work area where the document begins, the patch, and the value
 * on its way in a move or a copy. */
#define JSON_PATCH_ROW_DOCUMENT 0
#define JSON_PATCH_ROW_PATCH 2048
#define JSON_PATCH_ROW_SCRATCH 4096

/* One record of a lent list: read, stored, cleared. Where the list has no such
 * row, a record of zeros is read, and nothing is stored or cleared. No other
 * record changes. For looking at a work area: a call needs none of the three. In
 * librecord.a, see above. */
json_patch_node json_patch_node_read(const json_patch_node *nodes, size_t nodes_count, size_t row);
void json_patch_node_store(json_patch_node *nodes, size_t nodes_count, size_t row, json_patch_node node);
void json_patch_node_clear(json_patch_node *nodes, size_t nodes_count, size_t row);

/* What a node is. */
enum json_patch_kind {
    JSON_PATCH_KIND_NULL = 0,
    JSON_PATCH_KIND_TRUE = 1,
    JSON_PATCH_KIND_FALSE = 2,
    JSON_PATCH_KIND_NUMBER = 3,
    JSON_PATCH_KIND_STRING = 4,
    JSON_PATCH_KIND_ARRAY = 5,
    JSON_PATCH_KIND_OBJECT = 6
};

/* How its text is read, or its name. */
enum json_patch_form {
    JSON_PATCH_FORM_NONE = 0,    /* there is none, or it is empty */
    JSON_PATCH_FORM_PLAIN = 1,   /* a string without escapes */
    JSON_PATCH_FORM_ESCAPED = 2, /* a string with escapes */
    JSON_PATCH_FORM_TOKEN = 3,   /* a pointer's token inside a string */
    JSON_PATCH_FORM_NUMBER = 4   /* a number */
};

/* The text that it stands in. */
enum json_patch_source {
    JSON_PATCH_SOURCE_DOCUMENT = 0,
    JSON_PATCH_SOURCE_PATCH = 1
};

#ifdef __cplusplus
#define JSON_PATCH_AS_(type, value) static_cast<type>(value)
#else
#define JSON_PATCH_AS_(type, value) ((type)(value))
#endif

/* The parts of a node's tags:
 *     kind + 8 * (form + 8 * (source + 2 * (name form + 8 * name source))) */
static inline enum json_patch_kind json_patch_node_kind(json_patch_node node) {
    return JSON_PATCH_AS_(enum json_patch_kind, node.tags % 8);
}
static inline enum json_patch_form json_patch_node_form(json_patch_node node) {
    return JSON_PATCH_AS_(enum json_patch_form, node.tags / 8 % 8);
}
static inline enum json_patch_source json_patch_node_source(json_patch_node node) {
    return JSON_PATCH_AS_(enum json_patch_source, node.tags / 64 % 2);
}
static inline enum json_patch_form json_patch_node_name_form(json_patch_node node) {
    return JSON_PATCH_AS_(enum json_patch_form, node.tags / 128 % 8);
}
static inline enum json_patch_source json_patch_node_name_source(json_patch_node node) {
    return JSON_PATCH_AS_(enum json_patch_source, node.tags / 1024 % 2);
}

/* json_patch_apply in a work area. A pointer may be null where its length is 0. */
static inline uint32_t json_patch_apply_with(const void *document, size_t document_length,
                                             const void *patch, size_t patch_length,
                                             void *output, size_t output_length,
                                             json_patch_work *work, json_patch_answer *answer) {
    uint8_t none = 0;
    return json_patch_apply(document_length ? JSON_PATCH_AS_(const uint8_t *, document) : &none, document_length,
                            patch_length ? JSON_PATCH_AS_(const uint8_t *, patch) : &none, patch_length,
                            output_length ? JSON_PATCH_AS_(uint8_t *, output) : &none, output_length,
                            work->nodes, JSON_PATCH_WORK_NODES, work->index, JSON_PATCH_WORK_ENTRIES, answer);
}

/* json_patch_apply_within in a work area. A pointer may be null where its length
 * is 0. */
static inline uint32_t json_patch_apply_within_with(const void *document, size_t document_length,
                                                    const void *patch, size_t patch_length,
                                                    const void *region, size_t region_length,
                                                    void *output, size_t output_length,
                                                    json_patch_work *work, json_patch_answer *answer) {
    uint8_t none = 0;
    return json_patch_apply_within(document_length ? JSON_PATCH_AS_(const uint8_t *, document) : &none, document_length,
                                   patch_length ? JSON_PATCH_AS_(const uint8_t *, patch) : &none, patch_length,
                                   region_length ? JSON_PATCH_AS_(const uint8_t *, region) : &none, region_length,
                                   output_length ? JSON_PATCH_AS_(uint8_t *, output) : &none, output_length,
                                   work->nodes, JSON_PATCH_WORK_NODES, work->index, JSON_PATCH_WORK_ENTRIES, answer);
}

/* json_patch_merge in a work area. A pointer may be null where its length is 0. */
static inline uint32_t json_patch_merge_with(const void *document, size_t document_length,
                                             const void *patch, size_t patch_length,
                                             void *output, size_t output_length,
                                             json_patch_work *work, json_patch_answer *answer) {
    uint8_t none = 0;
    return json_patch_merge(document_length ? JSON_PATCH_AS_(const uint8_t *, document) : &none, document_length,
                            patch_length ? JSON_PATCH_AS_(const uint8_t *, patch) : &none, patch_length,
                            output_length ? JSON_PATCH_AS_(uint8_t *, output) : &none, output_length,
                            work->nodes, JSON_PATCH_WORK_NODES, work->index, JSON_PATCH_WORK_ENTRIES, answer);
}

/* json_patch_apply_with_undo in a work area. A pointer may be null where its length
 * is 0. */
static inline uint32_t json_patch_undo_with(const void *document, size_t document_length,
                                            const void *patch, size_t patch_length,
                                            void *output, size_t output_length,
                                            void *undo, size_t undo_length,
                                            json_patch_undo_work *work, json_patch_undo_answer *answer) {
    uint8_t none = 0, nothing = 0;
    return json_patch_apply_with_undo(document_length ? JSON_PATCH_AS_(const uint8_t *, document) : &none, document_length,
                                      patch_length ? JSON_PATCH_AS_(const uint8_t *, patch) : &none, patch_length,
                                      output_length ? JSON_PATCH_AS_(uint8_t *, output) : &none, output_length,
                                      undo_length ? JSON_PATCH_AS_(uint8_t *, undo) : &nothing, undo_length,
                                      work->work.nodes, JSON_PATCH_WORK_NODES, work->work.index, JSON_PATCH_WORK_ENTRIES,
                                      work->text, JSON_PATCH_UNDO_BYTES, answer);
}

/* json_patch_apply_origins in a work area. A pointer may be null where its length or
 * count is 0. */
static inline uint32_t json_patch_apply_origins_with(const void *document, size_t document_length,
                                                     const void *patch, size_t patch_length,
                                                     void *output, size_t output_length,
                                                     uint16_t *origins, size_t origins_count,
                                                     json_patch_work *work, json_patch_answer *answer) {
    uint8_t none = 0;
    uint16_t no_entry = 0;
    return json_patch_apply_origins(document_length ? JSON_PATCH_AS_(const uint8_t *, document) : &none,
                                    document_length,
                                    patch_length ? JSON_PATCH_AS_(const uint8_t *, patch) : &none, patch_length,
                                    output_length ? JSON_PATCH_AS_(uint8_t *, output) : &none, output_length,
                                    origins_count ? origins : &no_entry, origins_count,
                                    work->nodes, JSON_PATCH_WORK_NODES, work->index, JSON_PATCH_WORK_ENTRIES, answer);
}

/* json_patch_apply_within_origins in a work area. A pointer may be null where its length
 * or count is 0. */
static inline uint32_t json_patch_apply_within_origins_with(const void *document, size_t document_length,
                                                            const void *patch, size_t patch_length,
                                                            const void *region, size_t region_length,
                                                            void *output, size_t output_length,
                                                            uint16_t *origins, size_t origins_count,
                                                            json_patch_work *work, json_patch_answer *answer) {
    uint8_t none = 0;
    uint16_t no_entry = 0;
    return json_patch_apply_within_origins(document_length ? JSON_PATCH_AS_(const uint8_t *, document) : &none,
                                           document_length,
                                           patch_length ? JSON_PATCH_AS_(const uint8_t *, patch) : &none, patch_length,
                                           region_length ? JSON_PATCH_AS_(const uint8_t *, region) : &none,
                                           region_length,
                                           output_length ? JSON_PATCH_AS_(uint8_t *, output) : &none, output_length,
                                           origins_count ? origins : &no_entry, origins_count,
                                           work->nodes, JSON_PATCH_WORK_NODES,
                                           work->index, JSON_PATCH_WORK_ENTRIES, answer);
}

/* json_patch_merge_origins in a work area. A pointer may be null where its length or
 * count is 0. */
static inline uint32_t json_patch_merge_origins_with(const void *document, size_t document_length,
                                                     const void *patch, size_t patch_length,
                                                     void *output, size_t output_length,
                                                     uint16_t *origins, size_t origins_count,
                                                     json_patch_work *work, json_patch_answer *answer) {
    uint8_t none = 0;
    uint16_t no_entry = 0;
    return json_patch_merge_origins(document_length ? JSON_PATCH_AS_(const uint8_t *, document) : &none,
                                    document_length,
                                    patch_length ? JSON_PATCH_AS_(const uint8_t *, patch) : &none, patch_length,
                                    output_length ? JSON_PATCH_AS_(uint8_t *, output) : &none, output_length,
                                    origins_count ? origins : &no_entry, origins_count,
                                    work->nodes, JSON_PATCH_WORK_NODES, work->index, JSON_PATCH_WORK_ENTRIES, answer);
}

/* json_patch_apply_with_undo_origins in a work area. A pointer may be null where its
 * length or count is 0. */
static inline uint32_t json_patch_undo_origins_with(const void *document, size_t document_length,
                                                    const void *patch, size_t patch_length,
                                                    void *output, size_t output_length,
                                                    void *undo, size_t undo_length,
                                                    uint16_t *origins, size_t origins_count,
                                                    json_patch_undo_work *work, json_patch_undo_answer *answer) {
    uint8_t none = 0, nothing = 0;
    uint16_t no_entry = 0;
    return json_patch_apply_with_undo_origins(document_length ? JSON_PATCH_AS_(const uint8_t *, document) : &none,
                                              document_length,
                                              patch_length ? JSON_PATCH_AS_(const uint8_t *, patch) : &none,
                                              patch_length,
                                              output_length ? JSON_PATCH_AS_(uint8_t *, output) : &none, output_length,
                                              undo_length ? JSON_PATCH_AS_(uint8_t *, undo) : &nothing, undo_length,
                                              origins_count ? origins : &no_entry, origins_count,
                                              work->work.nodes, JSON_PATCH_WORK_NODES,
                                              work->work.index, JSON_PATCH_WORK_ENTRIES,
                                              work->text, JSON_PATCH_UNDO_BYTES, answer);
}

/* How many values a text has that the library wrote, and so how many entries of a list
 * were written: json_patch_values(output, answer.length). */
static inline size_t json_patch_values(const void *text, size_t length) {
    const unsigned char *bytes = JSON_PATCH_AS_(const unsigned char *, text);
    size_t at = 0, values = 0;
    while (at < length) {
        const unsigned char first = bytes[at++];
        if (first == ',' || first == ':' || first == ']' || first == '}') continue;
        if (first == '"') {
            while (at < length && bytes[at] != '"') at += bytes[at] == '\\' ? 2 : 1;
            at++;
            if (at < length && bytes[at] == ':') continue; /* a name */
        } else if (first != '[' && first != '{') {
            while (at < length && bytes[at] != ',' && bytes[at] != ']' && bytes[at] != '}') at++;
        }
        values++;
    }
    return values;
}

/* Whether the undo is refused and not the patch: it could not be read back. The
 * length is that of the patch. */
static inline int json_patch_undo_refused(const json_patch_undo_answer *answer, size_t patch_length) {
    if (answer->answer.text != JSON_PATCH_TEXT_PATCH || answer->answer.place != 0) return 0;
    switch (answer->answer.number) {
    case JSON_PATCH_TOO_MANY_OPERATIONS:
    case JSON_PATCH_TOO_DEEP:
    case JSON_PATCH_TOO_MANY_NODES: return 1;
    case JSON_PATCH_INPUT_TOO_LONG: return patch_length <= JSON_PATCH_MAX_BYTES;
    default: return 0;
    }
}

/* What a number means, in a few words. Never null. */
static inline const char *json_patch_message(uint64_t number) {
    switch (number) {
    case JSON_PATCH_DONE: return "done";
    case JSON_PATCH_WORK_TOO_SHORT: return "the work area is shorter than stated";
    case JSON_PATCH_INPUT_TOO_LONG: return "the text is longer than 32,768 bytes";
    case JSON_PATCH_NOT_JSON: return "not JSON text";
    case JSON_PATCH_REPEATED_NAME: return "a member name is repeated in one object";
    case JSON_PATCH_TOO_DEEP: return "more than 32 nested containers";
    case JSON_PATCH_TOO_MANY_NODES: return "more than 2,048 values";
    case JSON_PATCH_NUMBER_OVER_LIMIT: return "a number is over its limit";
    case JSON_PATCH_WRONG_SHAPE: return "the patch is malformed";
    case JSON_PATCH_TOO_MANY_OPERATIONS: return "more than 256 operations";
    case JSON_PATCH_MALFORMED_POINTER: return "a pointer is malformed";
    case JSON_PATCH_LOCATION_MISSING: return "the location does not exist";
    case JSON_PATCH_NO_INDEX: return "a token is not an array index";
    case JSON_PATCH_REMOVE_OF_ROOT: return "the root cannot be removed";
    case JSON_PATCH_MOVE_INTO_CHILD: return "a value cannot be moved into its own child";
    case JSON_PATCH_TEST_DIFFERS: return "the test found a difference";
    case JSON_PATCH_OUTPUT_TOO_SHORT: return "the result is longer than the lent output";
    case JSON_PATCH_NOT_PERMITTED: return "not permitted in the region";
    default: return "unknown answer";
    }
}

/* Lays text down at the place, as far as there is room; gives the next place. */
static inline size_t json_patch_put_text_(char *buffer, size_t size, size_t at, const char *text) {
    for (; *text; text++, at++)
        if (at < size) buffer[at] = *text;
    return at;
}

/* The same for a number, in decimal. */
static inline size_t json_patch_put_number_(char *buffer, size_t size, size_t at, uint64_t number) {
    char digits[21];
    size_t first = 20;
    digits[first] = '\0';
    do {
        digits[--first] = "0123456789"[number % 10];
        number /= 10;
    } while (number);
    return json_patch_put_text_(buffer, size, at, digits + first);
}

/* Describes an answer in words, such as
 *     done: 32 bytes written
 *     refused 3: patch, byte 37: not JSON text
 *     refused 15: operation 1: the test found a difference
 *     refused 11: operation 2: `path`, after 1 token: the location does not exist
 * As snprintf: at most size bytes are laid down, the last of them a zero, and
 * the length of the whole description is given. 128 bytes hold any. */
static inline size_t json_patch_describe(const json_patch_answer *answer, char *buffer, size_t size) {
    const int read = answer->number >= JSON_PATCH_NOT_JSON && answer->number <= JSON_PATCH_NUMBER_OVER_LIMIT;
    const size_t room = size ? size - 1 : 0;
    size_t at = 0;
    if (answer->number == JSON_PATCH_DONE) {
        at = json_patch_put_text_(buffer, room, at, "done: ");
        at = json_patch_put_number_(buffer, room, at, answer->length);
        at = json_patch_put_text_(buffer, room, at, answer->length == 1 ? " byte written" : " bytes written");
    } else {
        at = json_patch_put_text_(buffer, room, at, "refused ");
        at = json_patch_put_number_(buffer, room, at, answer->number);
        if (answer->text == JSON_PATCH_TEXT_DOCUMENT) at = json_patch_put_text_(buffer, room, at, ": document");
        if (answer->text == JSON_PATCH_TEXT_PATCH) at = json_patch_put_text_(buffer, room, at, ": patch");
        if (answer->text && read) {
            at = json_patch_put_text_(buffer, room, at, ", byte ");
            at = json_patch_put_number_(buffer, room, at, answer->place);
        }
        if (answer->op) {
            at = json_patch_put_text_(buffer, room, at, ": operation ");
            at = json_patch_put_number_(buffer, room, at, answer->op);
        }
        if (answer->pointer) {
            const char *name = answer->pointer == JSON_PATCH_POINTER_FROM ? ": `from`, after " : ": `path`, after ";
            at = json_patch_put_text_(buffer, room, at, name);
            at = json_patch_put_number_(buffer, room, at, answer->place);
            at = json_patch_put_text_(buffer, room, at, answer->place == 1 ? " token" : " tokens");
        }
        at = json_patch_put_text_(buffer, room, at, ": ");
        at = json_patch_put_text_(buffer, room, at, json_patch_message(answer->number));
    }
    if (size) buffer[at < room ? at : room] = '\0';
    return at;
}

/* The same for an answer with an undo, such as
 *     done: 32 bytes written, undo of 29 bytes
 *     refused 5: undo: more than 32 nested containers
 * The length is that of the patch. */
static inline size_t json_patch_undo_describe(const json_patch_undo_answer *answer, size_t patch_length,
                                              char *buffer, size_t size) {
    const int done = answer->answer.number == JSON_PATCH_DONE;
    const size_t room = size ? size - 1 : 0;
    size_t at = 0;
    if (!done && !json_patch_undo_refused(answer, patch_length)) return json_patch_describe(&answer->answer, buffer, size);
    if (done) {
        at = json_patch_describe(&answer->answer, buffer, size);
        at = json_patch_put_text_(buffer, room, at, ", undo of ");
        at = json_patch_put_number_(buffer, room, at, answer->undo);
        at = json_patch_put_text_(buffer, room, at, " bytes");
    } else {
        at = json_patch_put_text_(buffer, room, at, "refused ");
        at = json_patch_put_number_(buffer, room, at, answer->answer.number);
        at = json_patch_put_text_(buffer, room, at, ": undo: ");
        at = json_patch_put_text_(buffer, room, at, json_patch_message(answer->answer.number));
    }
    if (size) buffer[at < room ? at : room] = '\0';
    return at;
}

#ifdef __cplusplus
}
#endif

#endif
