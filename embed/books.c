// A book as a text, from C: written, read back, cut short, and wrong in each way. Ends with the line of the first case
// that is not as it should be.
#include "holds.h"

#define HEAD "fiorrudda book 1\n"
#define HOSTS "hosts 2\n1800000000 1 8:api.test\n18446744073709551615 0 5:b.c\n\"\n"
#define ENTRY "0 600 1 0 16:https://app.test 16:https://app.test 17:https://api.test/ 3:PUT\n"
#define NAME "5 0 0 1 16:https://app.test 16:https://app.test 17:https://api.test/ 3:x-a\n"
#define WHOLE HEAD HOSTS "entries 2\n" ENTRY NAME

static uint8_t room[8192];
static size_t len;
static uint64_t line;
static uint32_t reason;
static fiorrudda_handle none, book, other, headers;

// A text is refused at a line, for a reason, and the handle holds what it held.
static void refused(const char *text, size_t size, uint64_t at, uint32_t why) {
    void *was = other.at;
    line = 0, reason = 99;
    IS(NO, fiorrudda_book_of_text(&other, (const uint8_t *)text, size, &line, &reason));
    if (line != at || reason != why) {
        fprintf(stderr, "line %u, reason %u of:\n%s\n", (unsigned)line, (unsigned)reason, text);
        exit(1);
    }
    HOLDS(other.at == was);
}

#define REFUSED(text, at, why) refused(text, sizeof(text) - 1, at, FIORRUDDA_REASON_##why)

static void round_trip(void) {
    line = 7, reason = 7;
    IS(OK, fiorrudda_book_of_text(&book, T(WHOLE), &line, &reason));
    HOLDS(line == 7 && reason == 7);
    IS(OK, fiorrudda_book_text(&book, room, sizeof room, &len));
    HOLDS(len == sizeof(WHOLE) - 1 && memcmp(room, WHOLE, len) == 0);
    IS(OK, fiorrudda_known_host(&book, T("a.api.test"), 1799999999));
    IS(NO, fiorrudda_known_host(&book, T("a.api.test"), 1800000000));
    IS(OK, fiorrudda_book(&book));
    IS(OK, fiorrudda_book_text(&book, room, sizeof room, &len));
    HOLDS(len == strlen(HEAD "hosts 0\nentries 0\n"));
    IS(OK, fiorrudda_book_of_text(&other, room, len, &line, &reason));
    IS(OK, fiorrudda_note_host(&book, T("z.test"), T("max-age=9; includeSubDomains"), 1));
    IS(OK, fiorrudda_note_host(&book, T("a.test"), T("max-age=3"), 1));
    IS(OK, fiorrudda_book_text(&book, room, sizeof room, &len));
    HOLDS(len == strlen(HEAD "hosts 2\n4 0 6:a.test\n10 1 6:z.test\nentries 0\n"));
    HOLDS(memcmp(room, HEAD "hosts 2\n4 0 6:a.test\n10 1 6:z.test\nentries 0\n", len) == 0);
}

// As many entries as a key may have, and one more.
static void full(void) {
    static char text[16384];
    for (int count = 64; count <= 65; count++) {
        int at = sprintf(text, HEAD "hosts 0\nentries %d\n", count);
        for (int n = 0; n < count; n++) at += sprintf(text + at, "%s", ENTRY);
        if (count == 65) {
            refused(text, (size_t)at, 68, FIORRUDDA_REASON_FULL);
        } else {
            IS(OK, fiorrudda_book_of_text(&other, (const uint8_t *)text, (size_t)at, &line, &reason));
        }
    }
}

static void refusals(void) {
    void *was = other.at;
    // A text that was cut short is none, and neither is one with a byte more.
    for (size_t size = 0; size < sizeof(WHOLE) - 1; size++) {
        IS(NO, fiorrudda_book_of_text(&other, (const uint8_t *)WHOLE, size, &line, &reason));
        HOLDS(other.at == was);
    }
    REFUSED(WHOLE "\n", 8, TOO_LONG);
    REFUSED("", 1, NO_BOOK);
    REFUSED("Fiorrudda book 1\nhosts 0\nentries 0\n", 1, NO_BOOK);
    REFUSED("fiorrudda book 2\nhosts 0\nentries 0\n", 1, OTHER_FORMAT);
    REFUSED("fiorrudda book 1\r\nhosts 0\nentries 0\n", 1, OTHER_FORMAT);
    REFUSED(HEAD "hosts 00\nentries 0\n", 2, BAD_LINE);
    REFUSED(HEAD "hosts 4097\nentries 0\n", 2, BAD_LINE);
    REFUSED(HEAD "hosts 0\nentries 9223372036854775808\n", 3, BAD_LINE);
    REFUSED(HEAD "hosts 1\n18446744073709551616 0 1:a\nentries 0\n", 3, BAD_LINE);
    REFUSED(HEAD "hosts 1\n1 2 1:a\nentries 0\n", 3, BAD_LINE);
    REFUSED(HEAD "hosts 1\n1 0 2:a\nentries 0\n", 3, BAD_LINE);
    REFUSED(HEAD "hosts 1\n1 0 1:a \nentries 0\n", 3, BAD_LINE);
    REFUSED(HEAD "hosts 1\n-1 0 1:a\nentries 0\n", 3, BAD_LINE);
    REFUSED(HEAD "hosts 2\n1 0 1:b\n1 0 1:a\nentries 0\n", 4, ORDER);
    REFUSED(HEAD "hosts 2\n1 0 1:a\n2 0 1:a\nentries 0\n", 4, ORDER);
    REFUSED(HEAD "hosts 1\n1 0 1:a\nentries 2\n0 1 0 0 1:k 1:o 1:u 1:m\n0 1 0 0 1:j 1:o 1:u 1:m\n", 6, ORDER);
    REFUSED(HEAD "hosts 0\nentries 1\n0 1 0 2 1:k 1:o 1:u 1:m\n", 4, BAD_LINE);
}

static void misuse(void) {
    memset(room, 0xEE, sizeof room);
    len = 77;
    IS(WRONG_HANDLE, fiorrudda_book_text(&none, room, sizeof room, &len));
    IS(OK, fiorrudda_headers(&headers));
    IS(WRONG_HANDLE, fiorrudda_book_text(&headers, room, sizeof room, &len));
    HOLDS(len == 77 && room[0] == 0xEE);
    IS(OK, fiorrudda_book_of_text(&book, T(WHOLE), &line, &reason));
    IS(TOO_SHORT, fiorrudda_book_text(&book, room, sizeof(WHOLE) - 2, &len));
    HOLDS(len == sizeof(WHOLE) - 1 && room[0] == 0xEE);
    // What the handle held stays where the text is refused, and is freed where it is read.
    IS(NO, fiorrudda_book_of_text(&headers, T("x"), &line, &reason));
    IS(NO, fiorrudda_get(&headers, T("x"), room, sizeof room, &len));
    IS(OK, fiorrudda_book_of_text(&headers, T(WHOLE), &line, &reason));
    IS(WRONG_HANDLE, fiorrudda_get(&headers, T("x"), room, sizeof room, &len));
}

int main(void) {
    round_trip();
    full();
    refusals();
    misuse();
    fiorrudda_free(&book);
    fiorrudda_free(&other);
    fiorrudda_free(&headers);
    puts("books: ok");
    return 0;
}
