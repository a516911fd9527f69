// Whole fetches: each call with an empty handle, with one of another kind, with a number that stands for nothing and with
// what is not awaited; what a fetch comes to whose connection fails or whose answer is cut; and how far it comes by itself.
#include "holds.h"

static fiorrudda_handle client, request, fetch, book, other;
static uint8_t room[512];
static size_t len, used;
static uint32_t fault, header, reply;
static uint64_t value;

static uint32_t act(void) {
    uint32_t it = 99;
    IS(OK, fiorrudda_act(&fetch, &it));
    return it;
}

static uint64_t number(uint32_t which) {
    IS(OK, fiorrudda_number(&fetch, which, &value));
    return value;
}

static bool says(uint32_t which, const char *text) {
    IS(OK, fiorrudda_text(&fetch, which, 0, room, sizeof room, &len));
    return len == strlen(text) && !memcmp(room, text, len);
}

static uint32_t fed(const char *bytes) { return fiorrudda_feed(&fetch, (const uint8_t *)bytes, strlen(bytes), &used); }

// A fetch of a page's own server, whose request was sent.
static void begin(void) {
    IS(OK, fiorrudda_client(&client, T("https://a.example/"), T("https://a.example/"), 0));
    IS(OK, fiorrudda_request(&request, T("GET"), T("/b")));
    IS(OK, fiorrudda_fetch(&fetch, &client, &request, 0, 100, &fault, &header));
    HOLDS(act() == FIORRUDDA_ACT_SEND);
    IS(OK, fiorrudda_input(&fetch, FIORRUDDA_INPUT_SENT));
    HOLDS(act() == FIORRUDDA_ACT_READ_HEAD);
}

// Each call of a handle that holds nothing of its kind says so, and leaves it.
static void wrong_handles(fiorrudda_handle *it) {
    uint32_t number = 7;
    void *at = it->at;
    IS(WRONG_HANDLE, fiorrudda_client_policy(it, T("default-src 'self'"), true));
    IS(WRONG_HANDLE, fiorrudda_client_cookie(it, T("https://a.example/"), T("a=b")));
    IS(WRONG_HANDLE, fiorrudda_request_header(it, T("A"), T("1")));
    IS(WRONG_HANDLE, fiorrudda_request_text(it, FIORRUDDA_REQUEST_BODY, T("1")));
    IS(WRONG_HANDLE, fiorrudda_request_choose(it, FIORRUDDA_CHOOSE_MODE, FIORRUDDA_MODE_CORS));
    IS(WRONG_HANDLE, fiorrudda_act(it, &number));
    IS(WRONG_HANDLE, fiorrudda_text(it, FIORRUDDA_TEXT_URL, 0, room, sizeof room, &len));
    IS(WRONG_HANDLE, fiorrudda_number(it, FIORRUDDA_NUMBER_STATUS, &value));
    IS(WRONG_HANDLE, fiorrudda_to_send(it, room, sizeof room, &len));
    IS(WRONG_HANDLE, fiorrudda_input(it, FIORRUDDA_INPUT_SENT));
    IS(WRONG_HANDLE, fiorrudda_feed(it, T("HTTP/1.1 200\r\n\r\n"), &used));
    IS(WRONG_HANDLE, fiorrudda_ask(it, &book, &reply));
    IS(WRONG_HANDLE, fiorrudda_ask(&fetch, it, &reply));
    IS(WRONG_HANDLE, fiorrudda_judge(it, &book, &other, &number));
    IS(WRONG_HANDLE, fiorrudda_judge(&fetch, it, &other, &number));
    IS(WRONG_HANDLE, fiorrudda_fetch(&other, it, &request, 0, 100, &fault, &header));
    IS(WRONG_HANDLE, fiorrudda_fetch(&other, &client, it, 0, 100, &fault, &header));
    HOLDS(number == 7 && (it->at != NULL) == (at != NULL) && other.at == NULL);
}

static void misuse(void) {
    fiorrudda_handle empty = {0}, list = {0};
    begin();
    IS(OK, fiorrudda_book(&book));
    IS(OK, fiorrudda_headers(&list));
    wrong_handles(&empty);
    wrong_handles(&list);
    fiorrudda_free(&list);
    IS(NO_SUCH_NUMBER, fiorrudda_client(&other, T("https://a.example/"), T("https://a.example/"), 9));
    IS(NOT_A_URL, fiorrudda_client(&other, T("/"), T("https://a.example/"), 0));
    IS(NOT_HTTP, fiorrudda_client(&other, T("https://a.example/"), T("data:,x"), 0));
    IS(NOT_A_URL, fiorrudda_client(&other, T("https://\xff.example/\xff"), T("https://a.example/"), 0));
    IS(NO_SUCH_NUMBER, fiorrudda_load(&other, 0, T("/a.png")));
    IS(NO_SUCH_NUMBER, fiorrudda_load(&other, 8, T("/a.png")));
    HOLDS(other.at == NULL);
    IS(NOT_A_HEADER, fiorrudda_client_cookie(&client, T("https://a.example/"), T("a\n")));
    IS(NOT_A_URL, fiorrudda_client_cookie(&client, T("a.example"), T("a=b")));
    IS(NO_SUCH_NUMBER, fiorrudda_request_choose(&request, 8, 0));
    IS(NO_SUCH_NUMBER, fiorrudda_request_choose(&request, FIORRUDDA_CHOOSE_MODE, 4));
    IS(NO_SUCH_NUMBER, fiorrudda_request_text(&request, 3, T("a")));
    IS(NO, fiorrudda_request_choose(&request, FIORRUDDA_CHOOSE_PARSER, 1));
    IS(NO, fiorrudda_request_text(&request, FIORRUDDA_REQUEST_NONCE, T("a")));
    IS(NO_SUCH_NUMBER, fiorrudda_input(&fetch, 7));
    IS(NO_SUCH_NUMBER, fiorrudda_text(&fetch, 12, 0, room, sizeof room, &len));
    IS(NO_SUCH_NUMBER, fiorrudda_number(&fetch, 16, &value));
    IS(TOO_LATE, fiorrudda_fetch(&other, &client, &request, (uint64_t)1 << 48, 100, &fault, &header));
}

// What is not awaited changes nothing: the head is read after it as if it had not come.
static void not_awaited(void) {
    begin();
    for (uint32_t input = 0; input < 7; input++)
        if (input != FIORRUDDA_INPUT_ENDED && input != FIORRUDDA_INPUT_FAILED) IS(NOT_AWAITED, fiorrudda_input(&fetch, input));
    IS(NOT_AWAITED, fiorrudda_ask(&fetch, &book, &reply));
    IS(NO, fiorrudda_to_send(&fetch, room, sizeof room, &len));
    IS(OK, fed("HTTP/1.1 200 OK\r\nContent-Le"));
    HOLDS(used == 27 && act() == FIORRUDDA_ACT_READ_HEAD);
    IS(NOT_AWAITED, fiorrudda_input(&fetch, FIORRUDDA_INPUT_TOLD));
    IS(OK, fed("ngth: 3\r\n\r\nabcd"));
    HOLDS(used == 11 && act() == FIORRUDDA_ACT_READ_BODY);
    IS(NOT_AWAITED, fiorrudda_input(&fetch, FIORRUDDA_INPUT_SENT));
    IS(OK, fed("ab"));
    IS(OK, fed("cd"));
    HOLDS(act() == FIORRUDDA_ACT_OVER && number(FIORRUDDA_NUMBER_STATUS) == 200 && says(FIORRUDDA_TEXT_BODY, "abc"));
    HOLDS(says(FIORRUDDA_TEXT_WORD, "basic") && says(FIORRUDDA_TEXT_URL, "https://a.example/b"));
    for (uint32_t input = 0; input < 7; input++) IS(NOT_AWAITED, fiorrudda_input(&fetch, input));
    IS(NOT_AWAITED, fed("x"));
    IS(NOT_AWAITED, fiorrudda_ask(&fetch, &book, &reply));
    HOLDS(act() == FIORRUDDA_ACT_OVER);
}

// A connection that fails, an answer that ends early, a body that is too long.
static void failures(void) {
    begin();
    IS(OK, fiorrudda_input(&fetch, FIORRUDDA_INPUT_FAILED));
    HOLDS(act() == FIORRUDDA_ACT_OVER && says(FIORRUDDA_TEXT_WORD, "LinkFault"));
    begin();
    IS(OK, fed("HTTP/1.1 200 OK\r\n"));
    IS(OK, fiorrudda_input(&fetch, FIORRUDDA_INPUT_ENDED));
    HOLDS(says(FIORRUDDA_TEXT_WORD, "BadHead") && number(FIORRUDDA_NUMBER_ERROR) == FIORRUDDA_ERROR_BAD_HEAD);
    begin();
    IS(OK, fed("HTTP/1.1 200 OK\r\nContent-Length: 9\r\n\r\n"));
    IS(OK, fed("abc"));
    IS(OK, fiorrudda_input(&fetch, FIORRUDDA_INPUT_ENDED));
    HOLDS(number(FIORRUDDA_NUMBER_END) == FIORRUDDA_END_CUT && number(FIORRUDDA_NUMBER_COUNT) == 3);
    begin();
    IS(OK, fed("HTTP/1.1 200 OK\r\nContent-Length: 9\r\n\r\n"));
    IS(OK, fed("abcd"));
    IS(OK, fiorrudda_input(&fetch, FIORRUDDA_INPUT_FAILED));
    HOLDS(number(FIORRUDDA_NUMBER_END) == FIORRUDDA_END_FAULT && number(FIORRUDDA_NUMBER_COUNT) == 4);
    // The bytes so far decide a body of no length, whatever comes of the connection.
    begin();
    IS(OK, fed("HTTP/1.1 200 OK\r\nContent-Length: 0\r\n\r\n"));
    IS(OK, fiorrudda_input(&fetch, FIORRUDDA_INPUT_FAILED));
    HOLDS(number(FIORRUDDA_NUMBER_END) == FIORRUDDA_END_WHOLE && says(FIORRUDDA_TEXT_BODY, ""));
    begin();
    IS(OK, fed("HTTP/1.1 200 OK\r\nContent-Length: 101\r\n\r\n"));
    for (int n = 0; n < 101 && act() == FIORRUDDA_ACT_READ_BODY; n++) IS(OK, fed("x"));
    HOLDS(number(FIORRUDDA_NUMBER_END) == FIORRUDDA_END_TOO_BIG);
    begin();
    IS(OK, fed("HTTP/1.1 204 No Content\r\n\r\nabc"));
    HOLDS(used == 27);
    IS(NOT_AWAITED, fed("abc"));
    HOLDS(act() == FIORRUDDA_ACT_OVER && number(FIORRUDDA_NUMBER_END) == FIORRUDDA_END_NULL);
}

// What no request can be made of.
static void faults(void) {
    IS(OK, fiorrudda_request(&request, T("GET"), T("https://u:p@a.example/")));
    IS(NO_REQUEST, fiorrudda_fetch(&other, &client, &request, 0, 100, &fault, &header));
    HOLDS(fault == FIORRUDDA_FAULT_URL_CREDENTIALS && header == 0 && other.at == NULL);
    IS(OK, fiorrudda_request(&request, T("GET"), T("/")));
    IS(OK, fiorrudda_request_header(&request, T("A"), T("1")));
    IS(OK, fiorrudda_request_header(&request, T("A B"), T("1")));
    IS(NO_REQUEST, fiorrudda_fetch(&other, &client, &request, 0, 100, &fault, &header));
    HOLDS(fault == FIORRUDDA_FAULT_BAD_HEADER && header == 1);
}

// A book of the caller's own, and a violation that is told.
static void other_book(void) {
    IS(OK, fiorrudda_client(&client, T("http://a.example/"), T("http://a.example/"), 0));
    IS(OK, fiorrudda_client_policy(&client, T("connect-src 'none'"), false));
    IS(OK, fiorrudda_request(&request, T("GET"), T("/b")));
    IS(OK, fiorrudda_fetch(&fetch, &client, &request, 5, 100, &fault, &header));
    HOLDS(act() == FIORRUDDA_ACT_TELL && says(FIORRUDDA_TEXT_WORD, "connect-src") && number(FIORRUDDA_NUMBER_ENFORCED) == 0);
    IS(OK, fiorrudda_input(&fetch, FIORRUDDA_INPUT_TOLD));
    HOLDS(act() == FIORRUDDA_ACT_ASK && number(FIORRUDDA_NUMBER_CALL) == FIORRUDDA_CALL_MATCH && says(FIORRUDDA_TEXT_HOST, "a.example"));
    HOLDS(number(FIORRUDDA_NUMBER_TIME) == 5);
    IS(NOT_AWAITED, fiorrudda_input(&fetch, FIORRUDDA_INPUT_DONE));
    IS(OK, fiorrudda_input(&fetch, FIORRUDDA_INPUT_YES));
    HOLDS(act() == FIORRUDDA_ACT_SEND && says(FIORRUDDA_TEXT_ORIGIN, "https://a.example"));
}

// ---- how far a fetch comes without the network

#define APP T("https://app.example/"), T("https://app.example/")

static fiorrudda_handle found;

static uint32_t judged(void) {
    uint32_t it = 99;
    IS(OK, fiorrudda_judge(&fetch, &book, &found, &it));
    HOLDS(act() == it);
    return it;
}

static void begin_judged(void) { IS(OK, fiorrudda_fetch(&fetch, &client, &request, 5, 100, &fault, &header)); }

static bool violates(size_t at, uint32_t policy, bool enforced, const char *directive) {
    uint32_t its, is;
    if (fiorrudda_violation(&found, at, &its, &is) || its != policy || (is != 0) != enforced) return false;
    IS(OK, fiorrudda_violation_directive(&found, at, room, sizeof room, &len));
    return len == strlen(directive) && !memcmp(room, directive, len);
}

static size_t violations(void) {
    size_t count = 0;
    uint32_t policy, enforced;
    while (fiorrudda_violation(&found, count, &policy, &enforced) == FIORRUDDA_OK) count++;
    return count;
}

// A page upgrades its own images, where the policy alone forbids the URL as it is written.
static void upgraded(void) {
    IS(OK, fiorrudda_book(&book));
    IS(OK, fiorrudda_client(&client, APP, 0));
    IS(OK, fiorrudda_client_policy(&client, T("img-src 'self'; upgrade-insecure-requests"), true));
    IS(OK, fiorrudda_load(&request, FIORRUDDA_LOAD_IMAGE, T("http://app.example/i")));
    begin_judged();
    HOLDS(judged() == FIORRUDDA_ACT_SEND && says(FIORRUDDA_TEXT_ORIGIN, "https://app.example"));
    HOLDS(says(FIORRUDDA_TEXT_URL, "/i") && violations() == 0);
    IS(OK, fiorrudda_load(&request, FIORRUDDA_LOAD_IMAGE, T("https://ads.example/i")));
    begin_judged();
    HOLDS(judged() == FIORRUDDA_ACT_OVER && number(FIORRUDDA_NUMBER_ERROR) == FIORRUDDA_ERROR_CSP_REQUEST);
    HOLDS(violations() == 1 && violates(0, 0, true, "img-src"));
    // What is over stays so, and nothing is told again.
    HOLDS(judged() == FIORRUDDA_ACT_OVER && violations() == 0);
}

static void preflighted(void) {
    IS(OK, fiorrudda_client(&client, APP, 0));
    IS(OK, fiorrudda_client_policy(&client, T("connect-src 'self', default-src 'none'"), false));
    IS(OK, fiorrudda_request(&request, T("PUT"), T("https://api.example/d")));
    begin_judged();
    HOLDS(judged() == FIORRUDDA_ACT_SEND && number(FIORRUDDA_NUMBER_PREFLIGHT) == 1 && says(FIORRUDDA_TEXT_METHOD, "OPTIONS"));
    HOLDS(violations() == 2 && violates(0, 0, false, "connect-src") && violates(1, 1, false, "connect-src"));
    IS(OK, fiorrudda_input(&fetch, FIORRUDDA_INPUT_SENT));
    HOLDS(judged() == FIORRUDDA_ACT_READ_HEAD && violations() == 0);
    IS(OK, fed("HTTP/1.1 204 X\r\nAccess-Control-Allow-Origin: *\r\nAccess-Control-Allow-Methods: PUT\r\n\r\n"));
    HOLDS(judged() == FIORRUDDA_ACT_SEND && number(FIORRUDDA_NUMBER_PREFLIGHT) == 0 && says(FIORRUDDA_TEXT_METHOD, "PUT"));
    // The book has learnt it.
    begin_judged();
    HOLDS(judged() == FIORRUDDA_ACT_SEND && number(FIORRUDDA_NUMBER_PREFLIGHT) == 0);
}

// An answer that redirects, and one that is kept from the page, whose host the book notes.
static void answers_judged(void) {
    IS(OK, fiorrudda_client(&client, APP, 0));
    IS(OK, fiorrudda_request(&request, T("GET"), T("/a")));
    begin_judged();
    HOLDS(judged() == FIORRUDDA_ACT_SEND);
    IS(OK, fiorrudda_input(&fetch, FIORRUDDA_INPUT_SENT));
    IS(OK, fed("HTTP/1.1 302 X\r\nLocation: https://api.example/b\r\n\r\n"));
    HOLDS(judged() == FIORRUDDA_ACT_SEND && says(FIORRUDDA_TEXT_ORIGIN, "https://api.example"));
    HOLDS(says(FIORRUDDA_TEXT_URL, "/b"));
    IS(OK, fiorrudda_input(&fetch, FIORRUDDA_INPUT_SENT));
    IS(OK, fed("HTTP/1.1 200 X\r\nStrict-Transport-Security: max-age=9\r\nContent-Length: 2\r\n\r\nhi"));
    HOLDS(judged() == FIORRUDDA_ACT_OVER && number(FIORRUDDA_NUMBER_ERROR) == FIORRUDDA_ERROR_CORS_CHECK);
    IS(OK, fiorrudda_known_host(&book, T("api.example"), 13));
}

// It goes on from wherever it stands. What `violations` held is freed, whatever it was.
static void midway(void) {
    IS(OK, fiorrudda_client(&client, T("http://api.example/"), T("http://api.example/"), 0));
    IS(OK, fiorrudda_client_policy(&client, T("connect-src 'none'"), false));
    IS(OK, fiorrudda_request(&request, T("GET"), T("/c")));
    begin_judged();
    HOLDS(act() == FIORRUDDA_ACT_TELL);
    IS(OK, fiorrudda_input(&fetch, FIORRUDDA_INPUT_TOLD));
    HOLDS(act() == FIORRUDDA_ACT_ASK);
    IS(OK, fiorrudda_headers(&found));
    HOLDS(judged() == FIORRUDDA_ACT_SEND && says(FIORRUDDA_TEXT_ORIGIN, "https://api.example") && violations() == 0);
    IS(WRONG_HANDLE, fiorrudda_append(&found, T("A"), T("1")));
    fiorrudda_free(&found);
}

// A call that tells of more than 65,536 violations ends there, and the next goes on.
static void goes_on_for_long(void) {
    enum { EACH = 1024, MOST = 65536 };
    static char value[EACH * sizeof "img-src x,"];
    size_t end = 0;
    for (int at = 0; at < EACH; at++) end += (size_t)sprintf(value + end, "img-src x,");
    IS(OK, fiorrudda_client(&client, APP, 0));
    for (int at = 0; at < MOST / EACH; at++) IS(OK, fiorrudda_client_policy(&client, (uint8_t *)value, end, false));
    IS(OK, fiorrudda_client_policy(&client, T("img-src x"), true));
    IS(OK, fiorrudda_load(&request, FIORRUDDA_LOAD_IMAGE, T("/i")));
    begin_judged();
    HOLDS(judged() == FIORRUDDA_ACT_TELL && violations() == MOST);
    HOLDS(judged() == FIORRUDDA_ACT_OVER && violations() == 1 && violates(0, MOST, true, "img-src"));
    fiorrudda_free(&found);
}

int main(void) {
    misuse();
    not_awaited();
    failures();
    faults();
    other_book();
    upgraded();
    preflighted();
    answers_judged();
    midway();
    goes_on_for_long();
    fiorrudda_free(&client);
    fiorrudda_free(&request);
    fiorrudda_free(&fetch);
    fiorrudda_free(&book);
    fiorrudda_free(&other);
    puts("fetches: ok");
    return 0;
}
