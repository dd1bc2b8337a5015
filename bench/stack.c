/* The stack that a call takes, measured. Reads a file of cases (second/README.md)
 * from the standard input, makes each call on a stack of its own that was painted
 * before, and prints how deep it was touched at most, and by which case.
 *
 * The depth is counted from the frame of the function that calls, so it has the
 * arguments and the return address in it. Link with -z now, since the dynamic
 * linker's own frames would be measured otherwise. With -DWITH_UNDO it is the call
 * with an undo, and with -DCOMPARED the one that compares two texts. */
#include "json_patch.h"
#ifdef COMPARED
#include "json_patch_compare.h"
#endif

#include <stdio.h>
#include <stdlib.h>
#include <ucontext.h>

#define STACK_WORDS (1 << 16)
#define PAINT UINT64_C(0x9e3779b97f4a7c15)
#define MOST (1 << 20)

static uint64_t stack[STACK_WORDS];
static json_patch_node nodes[JSON_PATCH_WORK_NODES];
static uint16_t entries[JSON_PATCH_WORK_ENTRIES];
static uint8_t document[MOST], patch[MOST], output[MOST];
static size_t document_length, patch_length, room;
#ifdef WITH_UNDO
static uint8_t undo[JSON_PATCH_MAX_BYTES], text[JSON_PATCH_UNDO_BYTES];
static json_patch_undo_answer both;
#define ANSWER both.answer
#elif defined COMPARED
static json_patch_comparison answer;
#define ANSWER answer
#else
static json_patch_answer answer;
#define ANSWER answer
#endif
static ucontext_t here, there;
static const uint64_t *frame;

static void call(void) {
    frame = (const uint64_t *)__builtin_frame_address(0);
#ifdef WITH_UNDO
    json_patch_apply_with_undo(document, document_length, patch, patch_length, output, room, undo, sizeof undo, nodes,
                               JSON_PATCH_WORK_NODES, entries, JSON_PATCH_WORK_ENTRIES, text, sizeof text, &both);
#elif defined COMPARED
    json_patch_compare(document, document_length, patch, patch_length, nodes, JSON_PATCH_WORK_NODES, entries,
                       JSON_PATCH_WORK_ENTRIES, &answer);
#else
    json_patch_apply(document, document_length, patch, patch_length, output, room, nodes, JSON_PATCH_WORK_NODES, entries,
                     JSON_PATCH_WORK_ENTRIES, &answer);
#endif
}

static size_t depth(void) {
    const uint64_t *word = stack;
    for (size_t i = 0; i < STACK_WORDS; i++) stack[i] = PAINT;
    getcontext(&there);
    there.uc_stack.ss_sp = stack;
    there.uc_stack.ss_size = sizeof stack;
    there.uc_link = &here;
    makecontext(&there, call, 0);
    swapcontext(&here, &there);
    while (*word == PAINT) word++;
    return (size_t)(frame - word) * sizeof *word;
}

static void part(uint8_t *to, size_t length) {
    if (length > MOST || fread(to, 1, length, stdin) != length || getchar() != '\n') {
        fprintf(stderr, "not a file of cases\n");
        exit(2);
    }
}

int main(void) {
    char name[200], deepest[200] = "none";
    size_t most = 0, count = 0;
    /* Once without measuring, so that nothing is done for the first time. */
    depth();
    while (scanf("case %199s %zu %zu %zu", name, &room, &document_length, &patch_length) == 4 && getchar() == '\n') {
        part(document, document_length);
        part(patch, patch_length);
        if (room > MOST) room = MOST;
        const size_t now = depth();
        count++;
        if (now > most) {
            most = now;
            snprintf(deepest, sizeof deepest, "%s", name);
            printf("%6zu bytes: %s (answer %d)\n", now, name, (int)ANSWER.number);
        }
    }
    printf("%zu cases; at most %zu bytes of stack, by %s\n", count, most, deepest);
    return 0;
}
