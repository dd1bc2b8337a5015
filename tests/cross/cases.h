/* Every case of a file of cases (second/README.md), run through the library. The same
 * code runs under an operating system (hosted.c) and on a bare machine (bare.c). */
#ifndef CASES_H
#define CASES_H

#include "json_patch.h"

/* Whether the four calls that list origins are linked. */
#ifndef LISTED
#define LISTED 0
#endif

/* The files of cases: of the crates vectors, region_vectors, merge_vectors, undo_vectors
 * and origin_vectors. The first four are calls too. */
enum kind { PLAIN, REGION, MERGE, UNDO, ORIGINS };

typedef struct text {
    const uint8_t *bytes;
    size_t length;
} text;

/* One call: what is lent, and the answer. `listed`: the call that also lists origins. */
typedef struct request {
    enum kind call;
    int listed;
    text document, patch, region;
    uint8_t *output, *undo;
    uint16_t *origins;
    size_t room, undo_room, list_room, nodes_count, work_length;
    json_patch_undo_work *work;
    json_patch_undo_answer answer;
} request;

/* Says for each case what the stored output of its crate has: its name and the patch
 * tool's line; then the undo and what it makes of the result, or the origins. The last
 * lines are those of a work area that is too short. Says something else where the call has
 * not left the memory as it must. A zero ends the file. */
void run_cases(const uint8_t *file, enum kind kind);

/* The program gives these: the output, and the call, by `make_call`. */
void say(const void *bytes, size_t length);
uint32_t call(request *r);

#define TEXTS_ r->document.bytes, r->document.length, r->patch.bytes, r->patch.length
#define REGION_ r->region.bytes, r->region.length
#define OUTPUT_ r->output, r->room
#define UNDO_ r->undo, r->undo_room
#define LIST_ r->origins, r->list_room
#define WORK_ r->work->work.nodes, r->nodes_count, r->work->work.index, JSON_PATCH_WORK_ENTRIES
#define BUFFER_ r->work->text, r->work_length

static inline __attribute__((always_inline)) uint32_t make_call(request *r) {
    json_patch_answer *const answer = &r->answer.answer;
#if LISTED
    if (r->listed) switch (r->call) {
        case REGION: return json_patch_apply_within_origins(TEXTS_, REGION_, OUTPUT_, LIST_, WORK_, answer);
        case MERGE: return json_patch_merge_origins(TEXTS_, OUTPUT_, LIST_, WORK_, answer);
        case UNDO: return json_patch_apply_with_undo_origins(TEXTS_, OUTPUT_, UNDO_, LIST_, WORK_, BUFFER_, &r->answer);
        default: return json_patch_apply_origins(TEXTS_, OUTPUT_, LIST_, WORK_, answer);
    }
#endif
    switch (r->call) {
    case REGION: return json_patch_apply_within(TEXTS_, REGION_, OUTPUT_, WORK_, answer);
    case MERGE: return json_patch_merge(TEXTS_, OUTPUT_, WORK_, answer);
    case UNDO: return json_patch_apply_with_undo(TEXTS_, OUTPUT_, UNDO_, WORK_, BUFFER_, &r->answer);
    default: return json_patch_apply(TEXTS_, OUTPUT_, WORK_, answer);
    }
}

#endif
