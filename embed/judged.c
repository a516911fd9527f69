// A fetch that goes on by fiorrudda_judge comes to what it comes to by its acts, one after another: random clients,
// requests, books and answers, each fetch done both ways over the same bytes. Where it needs the network, and where it
// is over, its act, each text and number of it, the bytes that are sent, the violations on the way and the text of the
// book are printed, and the two prints compared.
//
//     judged [COUNT [SEED]]
#include <inttypes.h>
#include "holds.h"

enum { STOPS = 100, ERRORS = 27 };

// ---- what is drawn

static uint64_t state;

static uint32_t below(uint32_t limit) {
    state = state * 6364136223846793005u + 1442695040888963407u;
    return (uint32_t)((state >> 33) % limit);
}

static bool once_in(uint32_t times) { return below(times) == 0; }

#define OF(list) (list)[below(sizeof(list) / sizeof *(list))]
#define S(text) (const uint8_t *)(text), strlen(text)

static const char *const PAGES[] = {"https://app.example/p?q", "https://app.example/p?q", "http://app.example/",
    "http://localhost:3000/", "https://api.example/"};
static const char *const URLS[] = {"/own", "/own", "https://app.example/a?b#c", "http://app.example/a",
    "https://api.example/d", "https://api.example/d", "https://api.example/d", "http://api.example/d",
    "http://known.example/k", "http://a.known.example/", "//cdn.example/x", "http://127.0.0.1/x", "http://[::1]/",
    "https://app.example:25/", "data:,x", "ftp://a.example/"};
static const char *const METHODS[] = {"GET", "GET", "GET", "POST", "PUT", "PUT", "DELETE", "HEAD", "patch",
    "OPTIONS"};
static const char *const POLICIES[] = {"default-src 'self'", "connect-src 'self' https://api.example",
    "img-src 'none', media-src http:", "upgrade-insecure-requests", "img-src 'self'; upgrade-insecure-requests",
    "script-src 'nonce-n' 'strict-dynamic'", "font-src https:", "connect-src *; style-src 'self'",
    "script-src 'sha256-j0NDRmSPa5bfid2pAcUXaxCm2Dlh3TwayItZstwyeqQ='", "connect-src 'none'", "x y; ;",
    "connect-src http://known.example:80 https://api.example", "connect-src http://known.example:80"};
static const char *const METADATA[] = {"sha256-j0NDRmSPa5bfid2pAcUXaxCm2Dlh3TwayItZstwyeqQ=",
    "sha256-47DEQpj8HBSa+/TImW+5JCeuQeRkm5NMpJWZG3hSuFU=", "md5-x"};
static const char *const HOSTS[] = {"known.example", "app.example", "api.example", "cdn.example"};
static const char *const TERMS[] = {"max-age=3; includeSubDomains", "max-age=60; includeSubDomains", "max-age=9",
    "max-age=0"};
static const char *const ASKED[][2] = {{"X-A", "1"}, {"Content-Type", "application/json"},
    {"Content-Type", "text/plain"}, {"Authorization", "Basic eA=="}, {"Accept", "text/css"}, {"Range", "bytes=0-5"},
    {"X-B", "\xff"}};
static const char *const STATUSES[] = {"200 OK", "200 OK", "200 OK", "200 OK", "204 X", "206 X", "301 X", "302 X",
    "303 X", "307 X", "308 X", "307 X", "404 X", "100 X\r\n\r\nHTTP/1.1 200 OK", "999 X", "20 X"};
static const char *const TOLD[] = {"Access-Control-Allow-Origin: *",
    "Access-Control-Allow-Origin: https://app.example", "Access-Control-Allow-Origin: null",
    "Access-Control-Allow-Credentials: true", "Access-Control-Allow-Methods: PUT, DELETE",
    "Access-Control-Allow-Methods: a b",
    "Access-Control-Allow-Headers: x-a, content-type", "Access-Control-Allow-Headers: *", "Access-Control-Max-Age: 4",
    "Access-Control-Expose-Headers: *", "Strict-Transport-Security: max-age=5; includeSubDomains",
    "Content-Type: text/csv", "Content-Type: text/css", "Content-Type: text/javascript",
    "X-Content-Type-Options: nosniff", "Content-Length: 2", "Content-Length: 3", "Transfer-Encoding: chunked",
    "Content-Encoding: gzip", "Cross-Origin-Resource-Policy: same-origin", "Cross-Origin-Resource-Policy: same-site",
    "Set-Cookie: a=b", "no header"};
static const char *const PLACES[] = {"Location: /next", "Location: /next", "Location: https://api.example/next",
    "Location: https://app.example/next", "Location: https://api.example/next", "Location: http://app.example/next",
    "Location: //cdn.example/next#f", "Location: https://u:p@api.example/", "Location: data:,x", "Location: http://["};
static const char *const BODIES[] = {"hi", "hi", "2\r\nhi\r\n0\r\n\r\n", "", "hello", "h"};

// ---- what is printed

typedef struct print {
    char *at;
    size_t len, size;
} print;

static void put(print *p, const void *bytes, size_t len) {
    if (p->size - p->len < len) {
        p->size = 2 * (p->size + len);
        p->at = realloc(p->at, p->size);
        HOLDS(p->at);
    }
    memcpy(p->at + p->len, bytes, len);
    p->len += len;
}

static void put_number(print *p, const char *label, uint64_t number) {
    char line[64];
    put(p, line, (size_t)snprintf(line, sizeof line, "%s %" PRIu64 " ", label, number));
}

static void put_text(print *p, const char *label, const uint8_t *text, size_t len) {
    put_number(p, label, len);
    put(p, text, len);
    put(p, "\n", 1);
}

// One of two fetches of the same, the book that it asks, the violations that it came to last, and what is printed.
typedef struct side {
    fiorrudda_handle fetch, book, found;
    print told;
} side;

static uint8_t room[1 << 16];
static size_t len;

static bool put_part(side *it, uint32_t which, size_t at) {
    uint32_t code = fiorrudda_text(&it->fetch, which, at, room, sizeof room, &len);
    HOLDS(code == FIORRUDDA_OK || code == FIORRUDDA_NO);
    if (code == FIORRUDDA_OK) put_text(&it->told, "text", room, len);
    return code == FIORRUDDA_OK;
}

static bool is_list(uint32_t which) {
    return which == FIORRUDDA_TEXT_HEADER_NAME || which == FIORRUDDA_TEXT_HEADER_VALUE ||
           which == FIORRUDDA_TEXT_NAME || which == FIORRUDDA_TEXT_LEARNT;
}

static void put_parts(side *it) {
    for (uint32_t which = FIORRUDDA_TEXT_ORIGIN; which <= FIORRUDDA_TEXT_REFUSED; which++) {
        put_number(&it->told, "part", which);
        for (size_t at = 0; put_part(it, which, at) && is_list(which); at++);
    }
    for (uint32_t which = FIORRUDDA_NUMBER_CALL; which <= FIORRUDDA_NUMBER_METHODS; which++) {
        uint64_t told = 0;
        uint32_t code = fiorrudda_number(&it->fetch, which, &told);
        put_number(&it->told, code ? "no number" : "number", told);
    }
}

static void put_violation(side *it, uint64_t policy, uint64_t enforced, const char *directive, const char *url) {
    put_number(&it->told, "violation", policy);
    put_number(&it->told, "enforced", enforced);
    put(&it->told, directive, strlen(directive));
    put(&it->told, " ", 1);
    put(&it->told, url, strlen(url));
    put(&it->told, "\n", 1);
}

// All that is seen of the fetch where it stands, and of its book.
static void put_all(side *it, uint32_t act) {
    put_number(&it->told, "act", act);
    put_parts(it);
    if (fiorrudda_to_send(&it->fetch, room, sizeof room, &len) == FIORRUDDA_OK) put_text(&it->told, "sent", room, len);
    IS(OK, fiorrudda_book_text(&it->book, room, sizeof room, &len));
    put_text(&it->told, "book", room, len);
}

// ---- how far it comes without the network

static struct {
    uint64_t asked, violations, preflights, redirects, stops, outcomes[3], errors[ERRORS];
} seen;

// By one call, or by several where each goes on for long.
static uint32_t judged(side *it) {
    uint32_t act, policy, enforced;
    char directive[64], url[8192];
    do {
        IS(OK, fiorrudda_judge(&it->fetch, &it->book, &it->found, &act));
        for (size_t at = 0; fiorrudda_violation(&it->found, at, &policy, &enforced) == FIORRUDDA_OK; at++) {
            IS(OK, fiorrudda_violation_directive(&it->found, at, (uint8_t *)directive, sizeof directive - 1, &len));
            directive[len] = 0;
            IS(OK, fiorrudda_violation_url(&it->found, at, (uint8_t *)url, sizeof url - 1, &len));
            url[len] = 0;
            put_violation(it, policy, enforced, directive, url);
        }
    } while (act == FIORRUDDA_ACT_ASK || act == FIORRUDDA_ACT_TELL);
    return act;
}

static const char *part(side *it, uint32_t which, char *into, size_t size) {
    IS(OK, fiorrudda_text(&it->fetch, which, 0, (uint8_t *)into, size - 1, &len));
    into[len] = 0;
    return into;
}

static uint64_t number(side *it, uint32_t which) {
    uint64_t told;
    IS(OK, fiorrudda_number(&it->fetch, which, &told));
    return told;
}

static void tell(side *it) {
    char directive[64], url[8192];
    put_violation(it, number(it, FIORRUDDA_NUMBER_POLICY), number(it, FIORRUDDA_NUMBER_ENFORCED),
        part(it, FIORRUDDA_TEXT_WORD, directive, sizeof directive), part(it, FIORRUDDA_TEXT_URL, url, sizeof url));
    IS(OK, fiorrudda_input(&it->fetch, FIORRUDDA_INPUT_TOLD));
    seen.violations++;
}

// By its acts, one after another.
static uint32_t acted(side *it) {
    for (;;) {
        uint32_t act, reply;
        IS(OK, fiorrudda_act(&it->fetch, &act));
        if (act == FIORRUDDA_ACT_TELL) {
            tell(it);
        } else if (act == FIORRUDDA_ACT_ASK) {
            IS(OK, fiorrudda_ask(&it->fetch, &it->book, &reply));
            seen.asked++;
        } else {
            return act;
        }
    }
}

// ---- what is asked for

static fiorrudda_handle client, request;
static side one, other;

static void draw_client(void) {
    const char *page = OF(PAGES), *top = once_in(3) ? OF(PAGES) : page;
    IS(OK, fiorrudda_client(&client, S(page), S(top), below(9)));
    for (uint32_t left = below(3); left; left--) {
        const char *value = OF(POLICIES);
        IS(OK, fiorrudda_client_policy(&client, S(value), !once_in(3)));
    }
    IS(OK, fiorrudda_client_cookie(&client, T("https://api.example/"), T("a=b")));
    IS(OK, fiorrudda_client_cookie(&client, T("https://app.example/"), T("c=d")));
}

static void choose(uint32_t choice, uint32_t number) { IS(OK, fiorrudda_request_choose(&request, choice, number)); }

static void draw_load(void) {
    const char *url = OF(URLS);
    IS(OK, fiorrudda_load(&request, 1 + below(FIORRUDDA_LOAD_MANIFEST), S(url)));
    choose(FIORRUDDA_CHOOSE_CROSSORIGIN, below(3));
    choose(FIORRUDDA_CHOOSE_PARSER, below(2));
    if (once_in(3)) IS(OK, fiorrudda_request_text(&request, FIORRUDDA_REQUEST_NONCE, T("n")));
}

static void draw_fetch(void) {
    const char *url = OF(URLS), *method = OF(METHODS);
    bool is_read = *method == 'G' || *method == 'H';
    IS(OK, fiorrudda_request(&request, S(method), S(url)));
    for (uint32_t left = below(3); left; left--) {
        const char *const *header = OF(ASKED);
        IS(OK, fiorrudda_request_header(&request, S(header[0]), S(header[1])));
    }
    if (once_in(4)) choose(FIORRUDDA_CHOOSE_MODE, below(3));
    choose(FIORRUDDA_CHOOSE_CREDENTIALS, below(3));
    if (once_in(4)) choose(FIORRUDDA_CHOOSE_REDIRECT, below(3));
    choose(FIORRUDDA_CHOOSE_REFERRER, !once_in(5));
    if (once_in(6)) choose(FIORRUDDA_CHOOSE_UPLOAD, 1);
    if (!is_read && once_in(2)) IS(OK, fiorrudda_request_text(&request, FIORRUDDA_REQUEST_BODY, T("body")));
}

static void draw_request(void) {
    if (once_in(3)) draw_load();
    else draw_fetch();
    if (once_in(4)) choose(FIORRUDDA_CHOOSE_REFERRER_POLICY, below(9));
    const char *metadata = OF(METADATA);
    if (once_in(6)) IS(OK, fiorrudda_request_text(&request, FIORRUDDA_REQUEST_INTEGRITY, S(metadata)));
}

// A new book now and then, and some hosts in either.
static void draw_books(uint64_t now) {
    if (once_in(20)) {
        IS(OK, fiorrudda_book(&one.book));
        IS(OK, fiorrudda_book(&other.book));
    }
    if (once_in(3)) {
        const char *host = OF(HOSTS), *term = OF(TERMS);
        IS(OK, fiorrudda_note_host(&one.book, S(host), S(term), now));
        IS(OK, fiorrudda_note_host(&other.book, S(host), S(term), now));
    }
}

// ---- what the network does

static char answer[4096];
static size_t from, to;

static void say(const char *text) {
    size_t size = strlen(text);
    memcpy(answer + to, text, size);
    to += size;
}

static void say_line(const char *line) {
    say(line);
    say("\r\n");
}

// What lets most pages read, and most preflights pass.
static void allow(void) {
    say_line(once_in(4) ? TOLD[0] : TOLD[1]);
    say_line("Access-Control-Allow-Credentials: true");
    say_line("Access-Control-Allow-Methods: PUT, DELETE, PATCH, OPTIONS");
    say_line(once_in(6) ? "Access-Control-Allow-Headers: x-b" :
        "Access-Control-Allow-Headers: x-a, x-b, content-type, authorization, range");
}

static void draw_answer(bool preflight) {
    const char *status = preflight && !once_in(6) ? "204 X" : OF(STATUSES);
    from = to = 0;
    say("HTTP/1.1 ");
    say_line(status);
    if (!once_in(5)) allow();
    if (*status == '3' && !once_in(9)) say_line(OF(PLACES));
    for (uint32_t left = below(5); left; left--) {
        const char *line = OF(TOLD);
        if (strcmp(line, "no header") || once_in(5)) say_line(line);
    }
    say_line("");
    say(OF(BODIES));
}

static void both(uint32_t input) {
    IS(OK, fiorrudda_input(&one.fetch, input));
    IS(OK, fiorrudda_input(&other.fetch, input));
}

static void feed_both(size_t size) {
    size_t used, too;
    IS(OK, fiorrudda_feed(&one.fetch, (uint8_t *)answer + from, size, &used));
    IS(OK, fiorrudda_feed(&other.fetch, (uint8_t *)answer + from, size, &too));
    HOLDS(used == too);
    from += used;
}

// Both are told the same of the act. `is_new` says that the last act was another one.
static void answer_both(uint32_t act, bool is_new) {
    if (once_in(60)) {
        both(FIORRUDDA_INPUT_FAILED);
    } else if (act == FIORRUDDA_ACT_SEND) {
        draw_answer(number(&one, FIORRUDDA_NUMBER_PREFLIGHT));
        both(FIORRUDDA_INPUT_SENT);
    } else if (from == to && !is_new) {
        both(FIORRUDDA_INPUT_ENDED);
    } else {
        feed_both(once_in(2) ? to - from : below((uint32_t)(to - from + 1)));
    }
}

// ---- one fetch, both ways

static bool begun(uint64_t now) {
    uint32_t fault, header, limit = once_in(9) ? 1 : 100;
    uint32_t code = fiorrudda_fetch(&one.fetch, &client, &request, now, limit, &fault, &header);
    HOLDS(fiorrudda_fetch(&other.fetch, &client, &request, now, limit, &fault, &header) == code);
    HOLDS(code == FIORRUDDA_OK || code == FIORRUDDA_NO_REQUEST);
    one.told.len = other.told.len = 0;
    return code == FIORRUDDA_OK;
}

static void compare(uint64_t fetches) {
    if (one.told.len == other.told.len && !memcmp(one.told.at, other.told.at, one.told.len)) return;
    fprintf(stderr, "judged: fetch %" PRIu64 " by fiorrudda_judge:\n", fetches);
    fwrite(one.told.at, 1, one.told.len, stderr);
    fprintf(stderr, "\nand by its acts:\n");
    fwrite(other.told.at, 1, other.told.len, stderr);
    exit(1);
}

static void count_act(uint32_t act, uint32_t before) {
    static bool was_preflight;
    seen.stops++;
    if (act == FIORRUDDA_ACT_SEND) {
        seen.redirects += before == FIORRUDDA_ACT_READ_HEAD && !was_preflight;
        was_preflight = number(&one, FIORRUDDA_NUMBER_PREFLIGHT);
        seen.preflights += was_preflight;
    } else if (act == FIORRUDDA_ACT_OVER) {
        uint64_t outcome = number(&one, FIORRUDDA_NUMBER_OUTCOME);
        seen.outcomes[outcome]++;
        if (outcome == FIORRUDDA_OUTCOME_ERROR) seen.errors[number(&one, FIORRUDDA_NUMBER_ERROR)]++;
    }
}

static void run(uint64_t fetches) {
    uint32_t act = FIORRUDDA_ACT_GONE;
    for (int stops = 0; stops < STOPS; stops++) {
        uint32_t before = act;
        act = judged(&one);
        HOLDS(acted(&other) == act);
        put_all(&one, act);
        put_all(&other, act);
        compare(fetches);
        count_act(act, before);
        if (act == FIORRUDDA_ACT_OVER) return;
        answer_both(act, act != before);
    }
}

int main(int count, char **words) {
    uint64_t wanted = count > 1 ? strtoull(words[1], NULL, 10) : 10000, fetches = 0, now = 0, kinds = 0;
    state = count > 2 ? strtoull(words[2], NULL, 10) : 1;
    IS(OK, fiorrudda_book(&one.book));
    IS(OK, fiorrudda_book(&other.book));
    while (fetches < wanted) {
        draw_client();
        draw_request();
        draw_books(now);
        if (begun(now)) run(fetches++);
        now += below(3);
    }
    for (size_t at = 0; at < ERRORS; at++) kinds += seen.errors[at] > 0;
    HOLDS(wanted < 10000 || (kinds >= 20 && seen.preflights > 500 && seen.redirects > 500 && seen.violations > 500 &&
        seen.outcomes[FIORRUDDA_OUTCOME_RESPONSE] > 500 && seen.outcomes[FIORRUDDA_OUTCOME_LOADED] > 200));
    printf("judged: ok, %" PRIu64 " fetches compared at %" PRIu64 " places, with %" PRIu64 " preflights, %" PRIu64
        " redirects, %" PRIu64 " violations, %" PRIu64 " calls of a book and %" PRIu64 " kinds of errors\n", fetches,
        seen.stops, seen.preflights, seen.redirects, seen.violations, seen.asked, kinds);
    fiorrudda_handle *all[] = {&client, &request, &one.fetch, &one.book, &one.found,
        &other.fetch, &other.book, &other.found};
    for (size_t at = 0; at < sizeof all / sizeof *all; at++) fiorrudda_free(all[at]);
    free(one.told.at);
    free(other.told.at);
    return 0;
}
