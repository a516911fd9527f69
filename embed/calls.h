// The call of a book that a fetch's act asks for, as a line of a history (docs/rules/printed-text.md), but for its reply.
#pragma once
#include <inttypes.h>
#include <stdio.h>
#include <stdlib.h>
#include "fiorrudda.h"

// Writes a text of the act. False where it has none.
static bool put_call_text(FILE *out, fiorrudda_handle *fetch, uint32_t which, size_t at) {
    uint8_t room[2048], *text = room;
    size_t len;
    uint32_t code = fiorrudda_text(fetch, which, at, room, sizeof room, &len);
    if (code == FIORRUDDA_TOO_SHORT && (text = malloc(len)))
        code = fiorrudda_text(fetch, which, at, text, len, &len);
    if (code == FIORRUDDA_OK)
        fwrite(text, 1, len, out);
    if (text != room)
        free(text);
    return code == FIORRUDDA_OK;
}

// Writes all texts of a list, with commas, or `()`.
static void put_call_list(FILE *out, fiorrudda_handle *fetch, uint32_t which, uint32_t count) {
    uint64_t texts = 0;
    fiorrudda_number(fetch, count, &texts);
    if (!texts)
        fputs("()", out);
    for (size_t at = 0; at < texts; at++) {
        if (at)
            putc(',', out);
        put_call_text(out, fetch, which, at);
    }
    putc(' ', out);
}

static void put_call_part(FILE *out, fiorrudda_handle *fetch, uint32_t which) {
    if (!put_call_text(out, fetch, which, 0))
        fputs("()", out);
    putc(' ', out);
}

static uint64_t call_number(fiorrudda_handle *fetch, uint32_t which) {
    uint64_t it = 0;
    fiorrudda_number(fetch, which, &it);
    return it;
}

static const char *include_word(fiorrudda_handle *fetch) {
    return call_number(fetch, FIORRUDDA_NUMBER_INCLUDE) ? "include" : "other";
}

static void put_call(FILE *out, fiorrudda_handle *fetch) {
    static const char *const names[] = {[FIORRUDDA_CALL_MATCH] = "match", [FIORRUDDA_CALL_NOTE] = "note",
        [FIORRUDDA_CALL_COVERS] = "covers", [FIORRUDDA_CALL_LEARN] = "learn", [FIORRUDDA_CALL_CLEAR] = "clear"};
    uint64_t call = call_number(fetch, FIORRUDDA_NUMBER_CALL);
    fprintf(out, "%s ", names[call]);
    if (call == FIORRUDDA_CALL_MATCH || call == FIORRUDDA_CALL_NOTE) {
        put_call_part(out, fetch, FIORRUDDA_TEXT_HOST);
    } else {
        put_call_part(out, fetch, FIORRUDDA_TEXT_KEY);
        put_call_part(out, fetch, FIORRUDDA_TEXT_ORIGIN);
    }
    if (call == FIORRUDDA_CALL_NOTE)
        fprintf(out, "%" PRIu64 " %s ", call_number(fetch, FIORRUDDA_NUMBER_AGE),
            call_number(fetch, FIORRUDDA_NUMBER_SUBDOMAINS) ? "sub" : "exact");
    if (call == FIORRUDDA_CALL_COVERS) {
        fprintf(out, "%s ", include_word(fetch));
        put_call_part(out, fetch, FIORRUDDA_TEXT_METHOD);
    }
    if (call == FIORRUDDA_CALL_LEARN) {
        fprintf(out, "%s %" PRIu64 " ", include_word(fetch), call_number(fetch, FIORRUDDA_NUMBER_AGE));
        put_call_list(out, fetch, FIORRUDDA_TEXT_LEARNT, FIORRUDDA_NUMBER_METHODS);
    }
    if (call == FIORRUDDA_CALL_COVERS || call == FIORRUDDA_CALL_LEARN)
        put_call_list(out, fetch, FIORRUDDA_TEXT_NAME, FIORRUDDA_NUMBER_NAMES);
    if (call >= FIORRUDDA_CALL_COVERS)
        put_call_part(out, fetch, FIORRUDDA_TEXT_URL);
    fprintf(out, "at %" PRIu64 ": ", call_number(fetch, FIORRUDDA_NUMBER_TIME));
}

// What the book replied, by the number that fiorrudda_ask tells.
static const char *reply_word(uint32_t reply) {
    return reply == FIORRUDDA_INPUT_YES ? "yes" : reply == FIORRUDDA_INPUT_NO ? "no" : "done";
}
