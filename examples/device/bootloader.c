/* A bootloader corrects a charge profile: AArch64, no operating system, no C library.
 * The profile and the makers' patches lie in flash, the result and its undo lie in RAM, and
 * what was refused is told on the serial line. Last, the last patch that was applied is taken
 * back. Built, run and compared by run.sh.
 *
 * The second bank of flash has slots of 64 KiB: first the profile, then patches. A slot
 * is "JSON", the text's length in 12 decimal digits, and the text. */
#include "device.h"
#include "json_patch.h"

#define SLOTS 8
#define SLOT_BYTES 65536
#define HEAD_BYTES 16

typedef struct text {
    const uint8_t *bytes;
    size_t length;
} text;

/* What the pack is charged with, and the patch that takes it back. */
typedef struct state {
    text profile;
    text undo;
    size_t slot; /* where the patch lies that was applied last, or 0 */
    size_t next; /* the pair of buffers that is free */
} state;

/* All the RAM that it takes, beside the stack. Two pairs of buffers, in turn: the profile
 * with its undo, and what a patch makes of it. They have the length of a document at most,
 * so that each result can be patched again; a longer one is refused. */
static json_patch_undo_work work;
static uint8_t results[2][JSON_PATCH_MAX_BYTES];
static uint8_t undos[2][JSON_PATCH_MAX_BYTES];

/* The text in a slot. Its length is not believed: more than the slot holds is no text. */
static int slot(size_t number, text *found) {
    const uint8_t *const head = DEVICE_FLASH + number * SLOT_BYTES;
    size_t length = 0;
    for (size_t i = 0; i < 4; i++)
        if (head[i] != "JSON"[i]) return 0;
    for (size_t i = 4; i < HEAD_BYTES; i++) {
        if (head[i] < '0' || head[i] > '9') return 0;
        length = 10 * length + (size_t)(head[i] - '0');
    }
    if (length > SLOT_BYTES - HEAD_BYTES) return 0;
    found->bytes = head + HEAD_BYTES;
    found->length = length;
    return 1;
}

static void tell(text patch, const json_patch_undo_answer *answer) {
    char words[128];
    json_patch_undo_describe(answer, patch.length, words, sizeof words);
    serial_text(words);
    serial_text("\n");
}

static void tell_text(const char *what, text told) {
    serial_text(what);
    serial_bytes(told.bytes, told.length);
    serial_text("\n");
}

/* The one place where the library is called. A patch that could not be taken back is
 * refused too. After a refusal the state is what it was, and no buffer has changed. */
static int apply(state *now, text patch) {
    json_patch_undo_answer answer;
    uint8_t *const output = results[now->next], *const undo = undos[now->next];
    json_patch_undo_with(now->profile.bytes, now->profile.length, patch.bytes, patch.length,
                         output, JSON_PATCH_MAX_BYTES, undo, JSON_PATCH_MAX_BYTES, &work, &answer);
    tell(patch, &answer);
    if (answer.answer.number != JSON_PATCH_DONE) return 0;
    now->profile = (text){output, answer.answer.length};
    now->undo = (text){undo, answer.undo};
    now->next = 1 - now->next;
    return 1;
}

/* Each patch in turn, on what the one before has left. */
static void apply_all(state *now) {
    for (size_t number = 1; number < SLOTS; number++) {
        text patch;
        if (!slot(number, &patch)) continue;
        serial_text("slot ");
        serial_number(number);
        serial_text(": ");
        if (apply(now, patch)) now->slot = number;
    }
}

/* The undo is a patch like any other, and has an undo itself. */
static void take_back(state *now) {
    if (!now->slot) return;
    serial_text("undo of slot ");
    serial_number(now->slot);
    tell_text(": ", now->undo);
    serial_text("taken back: ");
    apply(now, now->undo);
    now->slot = 0;
}

void device_main(void) {
    state now = {{0, 0}, {0, 0}, 0, 0};
    if (!slot(0, &now.profile)) {
        serial_text("no profile in flash\n");
        return;
    }
    tell_text("profile in flash: ", now.profile);
    apply_all(&now);
    tell_text("charging with: ", now.profile);
    take_back(&now);
    tell_text("charging with: ", now.profile);
}
