#include "cases.h"

#include <string.h>

#define OUTPUT 1048576
#define UNDO_ROOM 65536
#define LIST (JSON_PATCH_MAX_NODES + 8)
#define UNWRITTEN 0xff /* a byte that no text has, and no origin is as large as two of them */
#define SHORT_RUBBISH 0xa5

/* Eight bytes more than are lent, so that a byte written behind would be seen. */
static uint8_t output[OUTPUT + 8] __attribute__((aligned(8)));
static uint8_t undo[UNDO_ROOM + 8] __attribute__((aligned(8)));
static uint16_t origins[LIST + 4] __attribute__((aligned(8)));
static json_patch_undo_work work __attribute__((aligned(8)));

static void say_text(const char *text) { say(text, strlen(text)); }

static void say_field(const char *name, uint64_t number) {
    char digits[21];
    digits[json_patch_put_number_(digits, 20, 0, number)] = '\0';
    say_text(name);
    say_text(digits);
}

/* Whether all of an aligned buffer from a place on is one byte. */
static int all(const void *buffer, size_t from, size_t length, uint8_t byte) {
    const uint8_t *bytes = buffer;
    for (; from < length && from % 8; from++)
        if (bytes[from] != byte) return 0;
    for (; from + 8 <= length; from += 8) {
        uint64_t word;
        memcpy(&word, __builtin_assume_aligned(bytes + from, 8), 8);
        if (word != UINT64_C(0x0101010101010101) * byte) return 0;
    }
    for (; from < length; from++)
        if (bytes[from] != byte) return 0;
    return 1;
}

static void say_name(text name, const char *what) {
    say(name.bytes, name.length);
    say_text(what);
}

static void say_answer(const json_patch_answer *answer, const uint8_t *written) {
    if (answer->number == JSON_PATCH_DONE) {
        say(written, answer->length);
    } else {
        say_field("refused ", answer->number);
        say_field(" text ", answer->text);
        say_field(" op ", answer->op);
        say_field(" place ", answer->place);
        say_field(" pointer ", answer->pointer);
    }
    say("\n", 1);
}

/* How many origins were listed. */
static size_t listed(void) {
    size_t count = 0;
    while (count < LIST && origins[count] != 0xffff) count++;
    return count;
}

/* The work area holds rubbish, another for each case, and the outputs what no text has. */
static void prepare(request *r, uint8_t rubbish) {
    r->output = output;
    r->undo = undo;
    r->origins = origins;
    r->work = &work;
    memset(output, UNWRITTEN, r->room + 8);
    memset(undo, UNWRITTEN, r->undo_room + 8);
    memset(origins, UNWRITTEN, sizeof origins);
    memset(&work, rubbish, sizeof work);
    memset(&r->answer, rubbish, sizeof r->answer);
}

/* What is lent of the work area is zero afterwards, or unchanged after a 1. */
static void check(uint32_t returned, const request *r, uint8_t rubbish) {
    const json_patch_answer *answer = &r->answer.answer;
    const int done = answer->number == JSON_PATCH_DONE;
    const size_t lent = r->call == UNDO ? sizeof work : sizeof work.work, count = listed();
    if (returned != answer->number) say_text("the number returned is not the answer's: ");
    if (!all(&work, 0, lent, answer->number == JSON_PATCH_WORK_TOO_SHORT ? rubbish : 0))
        say_text("the work area is not as it must be: ");
    if (!all(&work, lent, sizeof work, rubbish)) say_text("what is not lent is changed: ");
    if (!all(output, answer->length, r->room + 8, UNWRITTEN)) say_text("the output is changed behind the text: ");
    if (!all(undo, r->call == UNDO ? r->answer.undo : 0, r->undo_room + 8, UNWRITTEN))
        say_text("the undo is changed behind the text: ");
    if ((count > 0) != (r->listed && done) || count > r->list_room) say_text("the list is not as it must be: ");
    if (!all(origins, 2 * count, sizeof origins, UNWRITTEN)) say_text("the list is changed behind the origins: ");
}

/* The undo on the result; the document comes back behind it. */
static void run_back(const request *with_undo) {
    request r = {.call = PLAIN, .document = {output, with_undo->answer.answer.length},
                 .patch = {undo, with_undo->answer.undo}, .output = output + OUTPUT / 2, .room = OUTPUT / 2,
                 .work = &work, .nodes_count = JSON_PATCH_WORK_NODES};
    make_call(&r);
    say_answer(&r.answer.answer, r.output);
}

static void run(text name, request *r, uint8_t rubbish) {
    prepare(r, rubbish);
    const uint32_t number = call(r);
    say_name(name, ": ");
    check(number, r, rubbish);
    say_answer(&r->answer.answer, output);
    if (number != JSON_PATCH_DONE) return;
    if (r->call == UNDO) {
        say_name(name, " undo: ");
        say(undo, r->answer.undo);
        say("\n", 1);
    }
    if (r->listed) {
        const size_t count = listed();
        say_name(name, " origins:");
        for (size_t i = 0; i < count; i++) say_field(" ", origins[i]);
        say("\n", 1);
    } else if (r->call == UNDO) {
        say_name(name, " back: ");
        run_back(r);
    }
}

/* A blank and a number. */
static size_t number_at(const uint8_t **at) {
    size_t n = 0;
    for (++*at; **at >= '0' && **at <= '9'; ++*at) n = 10 * n + (size_t)(**at - '0');
    return n;
}

static text text_at(const uint8_t **at, size_t length) {
    const text found = {*at + 1, length};
    *at += 1 + length;
    return found;
}

/* A call with a work area that is too short. */
static void run_short(enum kind kind, int listed, int buffer, const char *words) {
    const text nothing = {output, 0}, name = {(const uint8_t *)words, strlen(words)};
    request r = {.call = kind, .listed = listed, .document = nothing, .patch = nothing, .region = nothing,
                 .list_room = listed ? JSON_PATCH_MAX_NODES : 0, .nodes_count = JSON_PATCH_WORK_NODES - !buffer,
                 .work_length = JSON_PATCH_UNDO_BYTES - (size_t)buffer};
    run(name, &r, SHORT_RUBBISH);
}

static void run_shorts(enum kind kind) {
    if (kind == UNDO) {
        run_short(UNDO, 0, 1, "buffer-a-byte-short");
    } else if (kind != ORIGINS) {
        run_short(kind, 0, 0, "work-a-record-short");
    } else {
        run_short(PLAIN, 1, 0, "apply-work-a-record-short");
        run_short(REGION, 1, 0, "within-work-a-record-short");
        run_short(MERGE, 1, 0, "merge-work-a-record-short");
        run_short(UNDO, 1, 0, "undo-work-a-record-short");
        run_short(UNDO, 1, 1, "undo-buffer-a-byte-short");
    }
}

/* The call that a case with a list is put to: apply, within, merge or undo. */
static enum kind call_named(uint8_t letter) {
    return letter == 'w' ? REGION : letter == 'm' ? MERGE : letter == 'u' ? UNDO : PLAIN;
}

void run_cases(const uint8_t *file, enum kind kind) {
    const int origin_cases = kind == ORIGINS;
    for (const uint8_t *at = file; *at; at++) {
        request r = {.call = origin_cases ? call_named(*at) : kind, .listed = origin_cases,
                     .nodes_count = JSON_PATCH_WORK_NODES, .work_length = JSON_PATCH_UNDO_BYTES};
        while (*at != ' ') at++;
        text name = {++at, 0};
        while (*at != ' ') at++;
        name.length = (size_t)(at - name.bytes);
        r.room = number_at(&at);
        r.undo_room = kind == UNDO || origin_cases ? number_at(&at) : 0;
        r.list_room = origin_cases ? number_at(&at) : 0;
        const size_t document = number_at(&at), patch = number_at(&at);
        const size_t region = kind == REGION || origin_cases ? number_at(&at) : 0;
        r.document = text_at(&at, document);
        r.patch = text_at(&at, patch);
        if (kind == REGION || origin_cases) r.region = text_at(&at, region);
        if (r.room > OUTPUT / (r.call == UNDO ? 2 : 1) || r.undo_room > UNDO_ROOM || r.list_room > LIST) {
            say_name(name, ": there is less room\n");
        } else {
            run(name, &r, (uint8_t)(at + 1 - file));
        }
    }
    run_shorts(kind);
}
