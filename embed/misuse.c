// Misuse: each call with an empty handle and with one of each other kind, with room that is too short, with bytes that are no
// UTF-8, and with texts that are written over as soon as the call is over. Ends with the line of the first case that is not as
// it should be.
#include "holds.h"

enum { EMPTY, LIST, BOOK, CLIENT, REQUEST, FETCH, POLICIES, VIOLATIONS, KINDS };

static fiorrudda_handle held[KINDS], made;
static uint8_t room[2048];
static size_t len, used;
static uint32_t a, b;
static uint64_t age, line;

#define PAGE T("https://app.example/")
#define OTHER T("https://api.example/d")

// A handle of each kind: the fetch waits to send a request with a body, and its policies forbid an image.
static void hold(void) {
    IS(OK, fiorrudda_headers(&held[LIST]));
    IS(OK, fiorrudda_append(&held[LIST], T("Content-Type"), T("text/html")));
    IS(OK, fiorrudda_append(&held[LIST], T("Content-Security-Policy"), T("img-src 'none'")));
    IS(OK, fiorrudda_append(&held[LIST], T("Access-Control-Allow-Origin"), T("*")));
    IS(OK, fiorrudda_append(&held[LIST], T("Access-Control-Allow-Methods"), T("PUT")));
    IS(OK, fiorrudda_append(&held[LIST], T("Access-Control-Expose-Headers"), T("X-A")));
    IS(OK, fiorrudda_book(&held[BOOK]));
    IS(OK, fiorrudda_note_host(&held[BOOK], T("api.example"), T("max-age=9"), 1));
    IS(OK, fiorrudda_client(&held[CLIENT], PAGE, PAGE, FIORRUDDA_REFERRER_DEFAULT));
    IS(OK, fiorrudda_load(&held[REQUEST], FIORRUDDA_LOAD_IMAGE, T("https://api.example/i")));
    IS(OK, fiorrudda_policies(&held[POLICIES], &held[LIST]));
    IS(NO, fiorrudda_check(&held[VIOLATIONS], &held[POLICIES], &held[CLIENT], &held[REQUEST], T(""), FIORRUDDA_CHECK_ENFORCED));
    IS(OK, fiorrudda_request(&held[REQUEST], T("PUT"), OTHER));
    IS(OK, fiorrudda_request_header(&held[REQUEST], T("X-A"), T("1")));
    IS(OK, fiorrudda_request_choose(&held[REQUEST], FIORRUDDA_CHOOSE_MODE, FIORRUDDA_MODE_CORS));
    IS(OK, fiorrudda_fetch(&held[FETCH], &held[CLIENT], &held[REQUEST], 1, 100, &a, &b));
    IS(OK, fiorrudda_ask(&held[FETCH], &held[BOOK], &a));
}

// ---- handles

#define CALL(name, ...) static uint32_t name(fiorrudda_handle *it) { return fiorrudda_##__VA_ARGS__; }

CALL(append, append(it, T("A"), T("1")))
CALL(get, get(it, T("Content-Type"), room, sizeof room, &len))
CALL(name_at, name_at(it, 0, room, sizeof room, &len))
CALL(value_at, value_at(it, 0, room, sizeof room, &len))
CALL(cors_check, cors_check(T("https://a.example"), false, it))
CALL(resource_policy, resource_policy(PAGE, OTHER, it))
CALL(nosniff, nosniff(it))
CALL(essence, essence(it, room, sizeof room, &len))
CALL(unsafe_name, unsafe_name(it, 0, room, sizeof room, &len))
CALL(exposed_name, exposed_name(it, false, 0, room, sizeof room, &len))
CALL(policies, policies(&made, it))
CALL(filtered_list, filtered(&made, &held[CLIENT], &held[REQUEST], it, 200, FIORRUDDA_TAINTING_CORS, &a))
CALL(verdict_list, verdict(&held[CLIENT], &held[REQUEST], it, 204, &a, &age))
CALL(refused_list, refused_name(&held[CLIENT], &held[REQUEST], it, 204, room, sizeof room, &len))
CALL(type_list, type_blocked(&held[REQUEST], it))
CALL(nosniff_list, nosniff_blocked(&held[REQUEST], it))
CALL(note_host, note_host(it, T("a.example"), T("max-age=9"), 1))
CALL(known_host, known_host(it, T("a.example"), 1))
CALL(book_text, book_text(it, room, sizeof room, &len))
CALL(ask_book, ask(&held[FETCH], it, &a))
CALL(client_policy, client_policy(it, T("default-src 'self'"), true))
CALL(client_cookie, client_cookie(it, PAGE, T("a=b")))
CALL(fetch_client, fetch(&made, it, &held[REQUEST], 1, 100, &a, &b))
CALL(upgraded_client, mixed_upgraded(it, &held[REQUEST], T("")))
CALL(blocked_client, mixed_blocked(it, &held[REQUEST], T("")))
CALL(check_client, check(&made, &held[POLICIES], it, &held[REQUEST], T(""), 0))
CALL(preflight_client, preflight(it, &held[REQUEST], room, sizeof room, &len))
CALL(verdict_client, verdict(it, &held[REQUEST], &held[LIST], 204, &a, &age))
CALL(refused_client, refused_name(it, &held[REQUEST], &held[LIST], 204, room, sizeof room, &len))
CALL(filtered_client, filtered(&made, it, &held[REQUEST], &held[LIST], 200, FIORRUDDA_TAINTING_CORS, &a))
CALL(request_header, request_header(it, T("A"), T("1")))
CALL(request_text, request_text(it, FIORRUDDA_REQUEST_BODY, T("1")))
CALL(request_choose, request_choose(it, FIORRUDDA_CHOOSE_MODE, FIORRUDDA_MODE_CORS))
CALL(fetch_request, fetch(&made, &held[CLIENT], it, 1, 100, &a, &b))
CALL(upgraded_request, mixed_upgraded(&held[CLIENT], it, T("")))
CALL(blocked_request, mixed_blocked(&held[CLIENT], it, T("")))
CALL(check_request, check(&made, &held[POLICIES], &held[CLIENT], it, T(""), 0))
CALL(preflight_request, preflight(&held[CLIENT], it, room, sizeof room, &len))
CALL(verdict_request, verdict(&held[CLIENT], it, &held[LIST], 204, &a, &age))
CALL(refused_request, refused_name(&held[CLIENT], it, &held[LIST], 204, room, sizeof room, &len))
CALL(filtered_request, filtered(&made, &held[CLIENT], it, &held[LIST], 200, FIORRUDDA_TAINTING_CORS, &a))
CALL(type_request, type_blocked(it, &held[LIST]))
CALL(nosniff_request, nosniff_blocked(it, &held[LIST]))
CALL(act, act(it, &a))
CALL(text, text(it, FIORRUDDA_TEXT_ORIGIN, 0, room, sizeof room, &len))
CALL(number, number(it, FIORRUDDA_NUMBER_HEADERS, &age))
CALL(to_send, to_send(it, room, sizeof room, &len))
CALL(input, input(it, FIORRUDDA_INPUT_SENT))
CALL(feed, feed(it, T("HTTP/1.1 200\r\n\r\n"), &used))
CALL(ask_fetch, ask(it, &held[BOOK], &a))
CALL(judge_fetch, judge(it, &held[BOOK], &made, &a))
CALL(judge_book, judge(&held[FETCH], it, &made, &a))
CALL(upgrades, upgrades(it))
CALL(check_policies, check(&made, it, &held[CLIENT], &held[REQUEST], T(""), 0))
CALL(violation, violation(it, 0, &a, &b))
CALL(directive, violation_directive(it, 0, room, sizeof room, &len))
CALL(violation_url, violation_url(it, 0, room, sizeof room, &len))

#define ROW(kind, name) {kind, #name, name}
static const struct { int kind; const char *name; uint32_t (*call)(fiorrudda_handle *); } calls[] = {
    ROW(LIST, append), ROW(LIST, get), ROW(LIST, name_at), ROW(LIST, value_at), ROW(LIST, cors_check), ROW(LIST, resource_policy),
    ROW(LIST, nosniff), ROW(LIST, essence), ROW(LIST, unsafe_name), ROW(LIST, exposed_name), ROW(LIST, policies),
    ROW(LIST, filtered_list), ROW(LIST, verdict_list), ROW(LIST, refused_list), ROW(LIST, type_list), ROW(LIST, nosniff_list),
    ROW(BOOK, note_host), ROW(BOOK, known_host), ROW(BOOK, book_text), ROW(BOOK, ask_book), ROW(BOOK, judge_book),
    ROW(CLIENT, client_policy), ROW(CLIENT, client_cookie), ROW(CLIENT, fetch_client), ROW(CLIENT, upgraded_client),
    ROW(CLIENT, blocked_client), ROW(CLIENT, check_client), ROW(CLIENT, preflight_client), ROW(CLIENT, verdict_client),
    ROW(CLIENT, refused_client), ROW(CLIENT, filtered_client),
    ROW(REQUEST, request_header), ROW(REQUEST, request_text), ROW(REQUEST, request_choose), ROW(REQUEST, fetch_request),
    ROW(REQUEST, upgraded_request), ROW(REQUEST, blocked_request), ROW(REQUEST, check_request), ROW(REQUEST, preflight_request),
    ROW(REQUEST, verdict_request), ROW(REQUEST, refused_request), ROW(REQUEST, filtered_request), ROW(REQUEST, type_request),
    ROW(REQUEST, nosniff_request),
    ROW(FETCH, act), ROW(FETCH, text), ROW(FETCH, number), ROW(FETCH, to_send), ROW(FETCH, input), ROW(FETCH, feed),
    ROW(FETCH, ask_fetch), ROW(FETCH, judge_fetch),
    ROW(POLICIES, upgrades), ROW(POLICIES, check_policies),
    ROW(VIOLATIONS, violation), ROW(VIOLATIONS, directive), ROW(VIOLATIONS, violation_url),
};

static void unwritten(void) {
    len = used = a = b = 77;
    age = line = 77;
    memset(room, 0xEE, sizeof room);
}

// The last call wrote nothing, nowhere.
static bool kept(void) {
    bool is = len == 77 && used == 77 && a == 77 && b == 77 && age == 77 && line == 77 && !made.at;
    for (size_t at = 0; at < sizeof room; at++) is = is && room[at] == 0xEE;
    return is;
}

// Each call says of each handle that is not of its kind that it is wrong, writes nothing, and leaves what it holds.
static void handles(void) {
    for (size_t at = 0; at < sizeof calls / sizeof *calls; at++)
        for (int kind = 0; kind < KINDS; kind++) {
            void *before = held[kind].at;
            if (kind == calls[at].kind) continue;
            unwritten();
            uint32_t code = calls[at].call(&held[kind]);
            if (code != FIORRUDDA_WRONG_HANDLE || !kept() || held[kind].at != before) {
                fprintf(stderr, "misuse: %s of a handle of kind %d: %u\n", calls[at].name, kind, (unsigned)code);
                exit(1);
            }
        }
    // And of its own kind it does not: so each handle still holds what it held.
    for (size_t at = 0; at < sizeof calls / sizeof *calls; at++) {
        hold();
        HOLDS(calls[at].call(&held[calls[at].kind]) != FIORRUDDA_WRONG_HANDLE);
        fiorrudda_free(&made);
    }
}

// ---- room

#define WRITES(name, call, ...) \
    static uint32_t name##_into(size_t room_len) { return fiorrudda_##call(__VA_ARGS__, room, room_len, &len); }

WRITES(get, get, &held[LIST], T("Content-Type"))
WRITES(name, name_at, &held[LIST], 0)
WRITES(value, value_at, &held[LIST], 0)
WRITES(essence, essence, &held[LIST])
WRITES(unsafe, unsafe_name, &held[LIST], 0)
WRITES(exposed, exposed_name, &held[LIST], false, 0)
WRITES(origin, origin, PAGE)
WRITES(referrer, referrer, FIORRUDDA_REFERRER_DEFAULT, PAGE, OTHER)
WRITES(directive, violation_directive, &held[VIOLATIONS], 0)
WRITES(url, violation_url, &held[VIOLATIONS], 0)
WRITES(preflight, preflight, &held[CLIENT], &held[REQUEST])
WRITES(refused, refused_name, &held[CLIENT], &held[REQUEST], &held[LIST], 204)
WRITES(text, text, &held[FETCH], FIORRUDDA_TEXT_ORIGIN, 0)
WRITES(to_send, to_send, &held[FETCH])
WRITES(book, book_text, &held[BOOK])
WRITES(play, play, T("{\"format\": 1, \"documents\": [{\"url\": \"https://a.test/\", \"script\": []}]}"))

static void rooms(void) {
    static uint32_t (*const writes[])(size_t) = {get_into, name_into, value_into, essence_into, unsafe_into, exposed_into, origin_into,
        referrer_into, directive_into, url_into, preflight_into, refused_into, text_into, to_send_into, book_into,
        play_into};
    hold();
    for (size_t at = 0; at < sizeof writes / sizeof *writes; at++) {
        unwritten();
        IS(TOO_SHORT, writes[at](0));
        size_t needed = len;
        for (size_t room_len = 0; room_len < needed; room_len++) {
            IS(TOO_SHORT, writes[at](room_len));
            HOLDS(len == needed);
        }
        len = 77;
        HOLDS(kept() && needed > 1);
        IS(OK, writes[at](needed));
        HOLDS(len == needed && room[0] != 0xEE && room[needed - 1] != 0xEE && room[needed] == 0xEE);
        unwritten();
        IS(OK, writes[at](sizeof room));
        HOLDS(len == needed && room[needed] == 0xEE);
    }
}

// ---- texts

#define BAD T("https://a.example/\xff")

// A URL with bytes that are no UTF-8 is none; each other text may have any bytes.
static void urls(void) {
    hold();
    unwritten();
    IS(NOT_A_URL, fiorrudda_origin(BAD, room, sizeof room, &len));
    IS(NOT_A_URL, fiorrudda_same_origin(BAD, PAGE));
    IS(NOT_A_URL, fiorrudda_same_origin(PAGE, BAD));
    IS(NOT_A_URL, fiorrudda_same_site(BAD, PAGE));
    IS(NOT_A_URL, fiorrudda_same_site(PAGE, BAD));
    IS(NOT_A_URL, fiorrudda_trustworthy(BAD));
    IS(NOT_A_URL, fiorrudda_bad_port(BAD));
    IS(NOT_A_URL, fiorrudda_referrer(0, BAD, PAGE, room, sizeof room, &len));
    IS(NOT_A_URL, fiorrudda_referrer(0, PAGE, BAD, room, sizeof room, &len));
    IS(NOT_A_URL, fiorrudda_source_matches(T("*"), BAD, PAGE, 0));
    IS(NOT_A_URL, fiorrudda_source_matches(T("*"), PAGE, BAD, 0));
    IS(NOT_A_URL, fiorrudda_resource_policy(BAD, PAGE, &held[LIST]));
    IS(NOT_A_URL, fiorrudda_resource_policy(PAGE, BAD, &held[LIST]));
    IS(NOT_A_URL, fiorrudda_client(&made, BAD, PAGE, 0));
    IS(NOT_A_URL, fiorrudda_client(&made, PAGE, BAD, 0));
    IS(NOT_A_URL, fiorrudda_client_cookie(&held[CLIENT], BAD, T("a=b")));
    IS(NOT_A_URL, fiorrudda_mixed_upgraded(&held[CLIENT], &held[REQUEST], BAD));
    IS(NOT_A_URL, fiorrudda_mixed_blocked(&held[CLIENT], &held[REQUEST], BAD));
    IS(NOT_A_URL, fiorrudda_check(&made, &held[POLICIES], &held[CLIENT], &held[REQUEST], BAD, 0));
    HOLDS(kept());
    IS(NOT_HTTP, fiorrudda_same_site(PAGE, T("data:,x")));
    IS(NOT_HTTP, fiorrudda_referrer(0, T("data:,x"), PAGE, room, sizeof room, &len));
    IS(NOT_HTTP, fiorrudda_client_cookie(&held[CLIENT], T("data:,x"), T("a=b")));
    IS(NOT_HTTP, fiorrudda_mixed_upgraded(&held[CLIENT], &held[REQUEST], T("data:,x")));
    HOLDS(kept());
}

// What a request is made of is looked at when its fetch begins.
static void faults(uint32_t fault) {
    unwritten();
    IS(NO_REQUEST, fiorrudda_fetch(&made, &held[CLIENT], &held[REQUEST], 1, 100, &a, &b));
    HOLDS(a == fault && b == 0 && !made.at);
    IS(NO_REQUEST, fiorrudda_preflight(&held[CLIENT], &held[REQUEST], room, sizeof room, &len));
}

static void bytes(void) {
    hold();
    IS(NOT_A_HEADER, fiorrudda_append(&held[LIST], T("\xff"), T("1")));
    IS(OK, fiorrudda_append(&held[LIST], T("A"), T("\xff")));
    IS(NO, fiorrudda_get(&held[LIST], T("\xff"), room, sizeof room, &len));
    IS(NO, fiorrudda_safelisted(T("\xff"), T("1")));
    IS(NOT_A_HEADER, fiorrudda_forbidden_header(T("\xff"), T("1")));
    IS(NO, fiorrudda_forbidden_method(T("\xff")));
    IS(NO, fiorrudda_cors_check(T("\xff"), true, &held[LIST]));
    IS(NO, fiorrudda_source_matches(T("\xff"), PAGE, PAGE, 0));
    IS(OK, fiorrudda_integrity(T("\xff"), T("x")));
    IS(NO, fiorrudda_sts(T("\xff"), &age, &a));
    IS(NO, fiorrudda_note_host(&held[BOOK], T("a.example"), T("\xff"), 1));
    IS(NOT_A_HOST, fiorrudda_note_host(&held[BOOK], T("\xff"), T("max-age=9"), 1));
    IS(NOT_A_HOST, fiorrudda_known_host(&held[BOOK], T("\xff"), 1));
    IS(OK, fiorrudda_client_policy(&held[CLIENT], T("\xff"), true));
    IS(OK, fiorrudda_client_cookie(&held[CLIENT], PAGE, T("\xff")));
    IS(NO, fiorrudda_book_of_text(&made, T("\xff"), &line, &a));
    HOLDS(line == 1 && a == FIORRUDDA_REASON_NO_BOOK);
    IS(NO, fiorrudda_play(T("\xff"), room, sizeof room, &len));
    HOLDS(len == 4 && !memcmp(room, "json", 4));
    IS(NO, fiorrudda_reports(T("\xff"), room, sizeof room, &len));
    IS(NO, fiorrudda_audit(T("\xff"), T("\xff"), room, sizeof room, &len));
    IS(OK, fiorrudda_request(&held[REQUEST], T("PUT"), T("/\xff")));
    faults(FIORRUDDA_FAULT_BAD_URL);
    IS(OK, fiorrudda_load(&held[REQUEST], FIORRUDDA_LOAD_IMAGE, BAD));
    faults(FIORRUDDA_FAULT_BAD_URL);
    IS(OK, fiorrudda_request(&held[REQUEST], T("P\xff"), OTHER));
    faults(FIORRUDDA_FAULT_BAD_METHOD);
    IS(OK, fiorrudda_request(&held[REQUEST], T("PUT"), OTHER));
    IS(OK, fiorrudda_request_text(&held[REQUEST], FIORRUDDA_REQUEST_BODY, T("\xff")));
    IS(OK, fiorrudda_request_text(&held[REQUEST], FIORRUDDA_REQUEST_INTEGRITY, T("\xff")));
    IS(OK, fiorrudda_request_header(&held[REQUEST], T("\xff"), T("1")));
    faults(FIORRUDDA_FAULT_BAD_HEADER);
}

// ---- what was lent

static uint8_t lent[128];

// A text that is written over once the call that was lent it is over.
static uint8_t *lend(const char *text) { return memcpy(lent, text, strlen(text)); }
#define LEND(text) lend(text), strlen(text)
#define OVER(call) do { IS(OK, call); memset(lent, '#', sizeof lent); } while (0)

// Nothing is kept of what was lent: what is sent and what is known has none of the bytes that were written over it.
static void lending(void) {
    OVER(fiorrudda_client(&held[CLIENT], LEND("https://app.example/p"), PAGE, FIORRUDDA_REFERRER_UNSAFE_URL));
    OVER(fiorrudda_client_policy(&held[CLIENT], LEND("connect-src https://api.example"), true));
    OVER(fiorrudda_client_cookie(&held[CLIENT], PAGE, LEND("a=b")));
    OVER(fiorrudda_request(&held[REQUEST], T("POST"), LEND("/cart")));
    OVER(fiorrudda_request_header(&held[REQUEST], T("X-A"), LEND("1")));
    OVER(fiorrudda_request_text(&held[REQUEST], FIORRUDDA_REQUEST_BODY, LEND("body")));
    IS(OK, fiorrudda_fetch(&held[FETCH], &held[CLIENT], &held[REQUEST], 1, 100, &a, &b));
    IS(OK, fiorrudda_act(&held[FETCH], &a));
    HOLDS(a == FIORRUDDA_ACT_TELL);
    fiorrudda_free(&held[CLIENT]);
    fiorrudda_free(&held[REQUEST]);
    IS(OK, fiorrudda_text(&held[FETCH], FIORRUDDA_TEXT_URL, 0, room, sizeof room, &len));
    HOLDS(len == 24 && !memcmp(room, "https://app.example/cart", len));
    IS(OK, fiorrudda_input(&held[FETCH], FIORRUDDA_INPUT_TOLD));
    IS(OK, fiorrudda_book(&held[BOOK]));
    OVER(fiorrudda_note_host(&held[BOOK], LEND("api.example"), T("max-age=9"), 1));
    IS(OK, fiorrudda_known_host(&held[BOOK], T("api.example"), 1));
    IS(OK, fiorrudda_headers(&held[LIST]));
    OVER(fiorrudda_append(&held[LIST], T("A"), LEND("123")));
    IS(OK, fiorrudda_get(&held[LIST], T("A"), room, sizeof room, &len));
    HOLDS(len == 3 && !memcmp(room, "123", 3));
}

static void sending(void) {
    static const char wanted[] = "POST /cart HTTP/1.1\r\nHost: app.example\r\n";
    OVER(fiorrudda_client(&held[CLIENT], LEND("https://app.example/p"), PAGE, FIORRUDDA_REFERRER_UNSAFE_URL));
    OVER(fiorrudda_client_cookie(&held[CLIENT], PAGE, LEND("a=b")));
    OVER(fiorrudda_request(&held[REQUEST], LEND("POST"), T("/cart")));
    OVER(fiorrudda_request_header(&held[REQUEST], LEND("X-A"), T("1")));
    OVER(fiorrudda_request_text(&held[REQUEST], FIORRUDDA_REQUEST_BODY, LEND("{\"n\":1}")));
    IS(OK, fiorrudda_fetch(&held[FETCH], &held[CLIENT], &held[REQUEST], 1, 100, &a, &b));
    IS(OK, fiorrudda_to_send(&held[FETCH], room, sizeof room - 1, &len));
    room[len] = 0;
    HOLDS(!memcmp(room, wanted, strlen(wanted)) && !strchr((char *)room, '#'));
    HOLDS(strstr((char *)room, "\r\nX-A: 1\r\n") && strstr((char *)room, "\r\nCookie: a=b\r\n"));
    HOLDS(strstr((char *)room, "\r\nReferer: https://app.example/p\r\n") && strstr((char *)room, "\r\nContent-Length: 7\r\n"));
    HOLDS(!strcmp((char *)room + len - 11, "\r\n\r\n{\"n\":1}"));
}

int main(void) {
    hold();
    handles();
    rooms();
    urls();
    bytes();
    lending();
    sending();
    for (int kind = 0; kind < KINDS; kind++) fiorrudda_free(&held[kind]);
    fiorrudda_free(&made);
    printf("misuse: ok, %u rows of handles\n", (unsigned)(sizeof calls / sizeof *calls * (KINDS - 1)));
    return 0;
}
