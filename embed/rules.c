// Each rule from C, with cases of the standards. Ends with the line of the first case that is not as it should be.
#include "holds.h"

static uint8_t room[64];
static size_t len;

// What the last call wrote is this text, and the rest of the room is as it was.
static bool wrote(const char *text) {
    bool is = len == strlen(text) && memcmp(room, text, len) == 0;
    for (size_t at = len; at < sizeof room; at++) is = is && room[at] == 0xEE;
    memset(room, 0xEE, sizeof room);
    return is;
}

// The last call wrote nothing.
static bool kept(void) {
    bool is = true;
    for (size_t at = 0; at < sizeof room; at++) is = is && room[at] == 0xEE;
    return is;
}

static void lists(void) {
    fiorrudda_handle headers = {0};
    IS(WRONG_HANDLE, fiorrudda_append(&headers, T("A"), T("1")));
    IS(WRONG_HANDLE, fiorrudda_get(&headers, T("A"), room, sizeof room, &len));
    IS(OK, fiorrudda_headers(&headers));
    IS(NO, fiorrudda_get(&headers, T("A"), room, sizeof room, &len));
    IS(OK, fiorrudda_append(&headers, T("A"), T("1")));
    IS(OK, fiorrudda_append(&headers, T("B"), T("2")));
    IS(OK, fiorrudda_append(&headers, T("a"), T("3")));
    IS(NOT_A_HEADER, fiorrudda_append(&headers, T("a b"), T("3")));
    IS(NOT_A_HEADER, fiorrudda_append(&headers, T(""), T("3")));
    IS(NOT_A_HEADER, fiorrudda_append(&headers, T("C"), T("3\r\nX: y")));
    IS(OK, fiorrudda_get(&headers, T("a"), room, sizeof room, &len));
    HOLDS(wrote("1, 3"));
    IS(TOO_SHORT, fiorrudda_get(&headers, T("A"), room, 3, &len));
    HOLDS(len == 4 && kept());
    IS(OK, fiorrudda_get(&headers, T("A"), room, 4, &len));
    HOLDS(wrote("1, 3"));
    IS(OK, fiorrudda_headers(&headers));
    IS(NO, fiorrudda_get(&headers, T("A"), room, sizeof room, &len));
    IS(WRONG_HANDLE, fiorrudda_known_host(&headers, T("a.example"), 0));
    fiorrudda_free(&headers);
    HOLDS(headers.at == NULL);
    fiorrudda_free(&headers);
}

static void cors(void) {
    fiorrudda_handle headers = {0};
    IS(WRONG_HANDLE, fiorrudda_cors_check(T("https://a.example"), false, &headers));
    IS(OK, fiorrudda_headers(&headers));
    IS(NO, fiorrudda_cors_check(T("https://a.example"), false, &headers));
    IS(OK, fiorrudda_append(&headers, T("access-control-allow-origin"), T("*")));
    IS(OK, fiorrudda_cors_check(T("https://a.example"), false, &headers));
    IS(OK, fiorrudda_cors_check(T("null"), false, &headers));
    IS(NO, fiorrudda_cors_check(T("https://a.example"), true, &headers));
    IS(OK, fiorrudda_append(&headers, T("Access-Control-Allow-Credentials"), T("true")));
    IS(NO, fiorrudda_cors_check(T("https://a.example"), true, &headers));
    IS(OK, fiorrudda_headers(&headers));
    IS(OK, fiorrudda_append(&headers, T("Access-Control-Allow-Origin"), T("https://a.example")));
    IS(OK, fiorrudda_cors_check(T("https://a.example"), false, &headers));
    IS(NO, fiorrudda_cors_check(T("https://a.example"), true, &headers));
    IS(NO, fiorrudda_cors_check(T("https://A.example"), false, &headers));
    IS(OK, fiorrudda_append(&headers, T("Access-Control-Allow-Credentials"), T("true")));
    IS(OK, fiorrudda_cors_check(T("https://a.example"), true, &headers));
    fiorrudda_free(&headers);
}

static void resource_policies(void) {
    fiorrudda_handle headers = {0};
    IS(OK, fiorrudda_headers(&headers));
    IS(NO, fiorrudda_resource_policy(T("https://a.example/"), T("https://b.example/"), &headers));
    IS(OK, fiorrudda_append(&headers, T("Cross-Origin-Resource-Policy"), T("same-site")));
    IS(OK, fiorrudda_resource_policy(T("https://a.example/"), T("https://b.test/"), &headers));
    IS(NO, fiorrudda_resource_policy(T("https://a.b.example/"), T("https://b.example/"), &headers));
    IS(OK, fiorrudda_resource_policy(T("http://a.b.example/"), T("https://b.example/"), &headers));
    IS(NOT_A_URL, fiorrudda_resource_policy(T("a.example"), T("https://b.example/"), &headers));
    IS(NOT_HTTP, fiorrudda_resource_policy(T("https://a.example/"), T("ftp://b.example/"), &headers));
    fiorrudda_free(&headers);
    IS(WRONG_HANDLE, fiorrudda_resource_policy(T("https://a.example/"), T("https://b.test/"), &headers));
}

static void origins(void) {
    IS(OK, fiorrudda_origin(T("HTTPS://A.Example:443/p?q#f"), room, sizeof room, &len));
    HOLDS(wrote("https://a.example"));
    IS(OK, fiorrudda_origin(T("http://[::0001]:8080/"), room, sizeof room, &len));
    HOLDS(wrote("http://[::1]:8080"));
    IS(TOO_SHORT, fiorrudda_origin(T("https://a.example/"), room, 0, &len));
    HOLDS(len == 17 && kept());
    IS(NOT_HTTP, fiorrudda_origin(T("data:,x"), room, sizeof room, &len));
    IS(NOT_A_URL, fiorrudda_origin(T("/p"), room, sizeof room, &len));
    IS(NOT_A_URL, fiorrudda_origin(T("https://a.example/\xff"), room, sizeof room, &len));
    IS(NOT_A_URL, fiorrudda_origin(T(""), room, sizeof room, &len));
    HOLDS(kept());
    IS(OK, fiorrudda_same_origin(T("https://a.example/x"), T("https://a.example:443/y")));
    IS(NO, fiorrudda_same_origin(T("https://a.example/"), T("http://a.example/")));
    IS(NOT_HTTP, fiorrudda_same_origin(T("https://a.example/"), T("about:blank")));
    IS(OK, fiorrudda_same_site(T("https://a.b.example/"), T("http://c.b.example:81/")));
    IS(NO, fiorrudda_same_site(T("https://a.example/"), T("https://b.test/")));
    IS(OK, fiorrudda_trustworthy(T("https://a.example/")));
    IS(OK, fiorrudda_trustworthy(T("http://x.localhost/")));
    IS(OK, fiorrudda_trustworthy(T("http://127.1.2.3/")));
    IS(OK, fiorrudda_trustworthy(T("http://[::1]/")));
    IS(NO, fiorrudda_trustworthy(T("http://a.example/")));
    IS(NO, fiorrudda_trustworthy(T("data:,x")));
    IS(OK, fiorrudda_bad_port(T("http://a.example:25/")));
    IS(NO, fiorrudda_bad_port(T("http://a.example:8080/")));
    IS(NO, fiorrudda_bad_port(T("http://a.example/")));
    IS(NOT_HTTP, fiorrudda_bad_port(T("ftp://a.example/")));
}

#define REFERRER(policy, target)                                                                  \
    fiorrudda_referrer(FIORRUDDA_REFERRER_##policy, T("https://u:p@a.example/b?c#d"), T(target), room, sizeof room, &len)

static void referrers(void) {
    IS(NO, REFERRER(NO_REFERRER, "https://a.example/"));
    IS(OK, REFERRER(NO_REFERRER_WHEN_DOWNGRADE, "https://b.example/"));
    HOLDS(wrote("https://a.example/b?c"));
    IS(NO, REFERRER(NO_REFERRER_WHEN_DOWNGRADE, "http://b.example/"));
    IS(OK, REFERRER(SAME_ORIGIN, "https://a.example/"));
    HOLDS(wrote("https://a.example/b?c"));
    IS(NO, REFERRER(SAME_ORIGIN, "https://b.example/"));
    IS(OK, REFERRER(ORIGIN, "http://b.example/"));
    HOLDS(wrote("https://a.example/"));
    IS(NO, REFERRER(STRICT_ORIGIN, "http://b.example/"));
    IS(OK, REFERRER(ORIGIN_WHEN_CROSS_ORIGIN, "http://b.example/"));
    HOLDS(wrote("https://a.example/"));
    IS(OK, REFERRER(STRICT_ORIGIN_WHEN_CROSS_ORIGIN, "https://b.example/"));
    HOLDS(wrote("https://a.example/"));
    IS(OK, REFERRER(DEFAULT, "https://b.example/"));
    HOLDS(wrote("https://a.example/"));
    IS(NO, REFERRER(DEFAULT, "http://b.example/"));
    IS(OK, REFERRER(UNSAFE_URL, "http://b.example/"));
    HOLDS(wrote("https://a.example/b?c"));
    IS(NO_SUCH_NUMBER, fiorrudda_referrer(9, T("https://a.example/"), T("https://b.example/"), room, sizeof room, &len));
    IS(NOT_HTTP, REFERRER(UNSAFE_URL, "data:,x"));
    HOLDS(kept());
}

// The digest is that of the Subresource Integrity specification, section 1.
#define HELLO "sha384-H8BRh8j48O9oYatfu5AZzq6A9RINhZO5H16dQZngK7T62em8MUt1FLm52t+eX6xO"

static void integrity(void) {
    IS(OK, fiorrudda_integrity(T(HELLO), T("alert('Hello, world.');")));
    IS(NO, fiorrudda_integrity(T(HELLO), T("alert('Hello, world!');")));
    IS(OK, fiorrudda_integrity(T("md5-x"), T("anything")));
    IS(OK, fiorrudda_integrity(T(""), T("")));
    IS(NO, fiorrudda_integrity(T("sha512-AAAA " HELLO), T("alert('Hello, world.');")));
}

// The fields are those of RFC 6797, section 6.2.
static void hosts(void) {
    uint64_t age = 7;
    uint32_t subdomains = 7;
    IS(NO, fiorrudda_sts(T("includeSubDomains"), &age, &subdomains));
    HOLDS(age == 7 && subdomains == 7);
    IS(OK, fiorrudda_sts(T("max-age=15768000 ; includeSubDomains"), &age, &subdomains));
    HOLDS(age == 15768000 && subdomains == 1);
    IS(OK, fiorrudda_sts(T("max-age=\"31536000\""), &age, &subdomains));
    HOLDS(age == 31536000 && subdomains == 0);
    fiorrudda_handle book = {0};
    IS(WRONG_HANDLE, fiorrudda_known_host(&book, T("a.example"), 0));
    IS(WRONG_HANDLE, fiorrudda_note_host(&book, T("a.example"), T("max-age=10"), 0));
    IS(OK, fiorrudda_book(&book));
    IS(NO, fiorrudda_known_host(&book, T("a.example"), 100));
    IS(OK, fiorrudda_note_host(&book, T("a.example"), T("max-age=10; includeSubDomains"), 100));
    IS(OK, fiorrudda_known_host(&book, T("a.example"), 109));
    IS(OK, fiorrudda_known_host(&book, T("b.a.example"), 109));
    IS(NO, fiorrudda_known_host(&book, T("ba.example"), 109));
    IS(NO, fiorrudda_known_host(&book, T("a.example"), 110));
    IS(NO, fiorrudda_note_host(&book, T("a.example"), T("max-age=x"), 100));
    IS(OK, fiorrudda_known_host(&book, T("a.example"), 109));
    IS(OK, fiorrudda_note_host(&book, T("a.example"), T("max-age=0"), 101));
    IS(NO, fiorrudda_known_host(&book, T("a.example"), 109));
    IS(TOO_LATE, fiorrudda_known_host(&book, T("a.example"), (uint64_t)1 << 48));
    IS(TOO_LATE, fiorrudda_note_host(&book, T("a.example"), T("max-age=1"), UINT64_MAX));
    // An address, a localhost name, a capital letter, a port and no text are hosts that are never known.
    const char *const hosts[] = {"127.0.0.1", "[::1]", "localhost", "a.localhost", "A.example", "a.example:1", "", "a b"};
    for (size_t at = 0; at < sizeof hosts / sizeof *hosts; at++) {
        const uint8_t *host = (const uint8_t *)hosts[at];
        IS(NOT_A_HOST, fiorrudda_note_host(&book, host, strlen(hosts[at]), T("max-age=1"), 100));
        IS(NOT_A_HOST, fiorrudda_known_host(&book, host, strlen(hosts[at]), 100));
    }
    IS(WRONG_HANDLE, fiorrudda_append(&book, T("A"), T("1")));
    IS(WRONG_HANDLE, fiorrudda_cors_check(T("https://a.example"), false, &book));
    fiorrudda_free(&book);
}

static void requests(void) {
    IS(OK, fiorrudda_safelisted(T("Accept"), T("text/html")));
    IS(OK, fiorrudda_safelisted(T("content-type"), T("text/plain;charset=utf-8")));
    IS(NO, fiorrudda_safelisted(T("Content-Type"), T("application/json")));
    IS(NO, fiorrudda_safelisted(T("X-A"), T("1")));
    IS(OK, fiorrudda_forbidden_method(T("trace")));
    IS(NO, fiorrudda_forbidden_method(T("PUT")));
}

static void answers(void) {
    fiorrudda_handle headers = {0};
    IS(WRONG_HANDLE, fiorrudda_nosniff(&headers));
    IS(WRONG_HANDLE, fiorrudda_essence(&headers, room, sizeof room, &len));
    IS(OK, fiorrudda_headers(&headers));
    IS(NO, fiorrudda_nosniff(&headers));
    IS(NO, fiorrudda_essence(&headers, room, sizeof room, &len));
    IS(OK, fiorrudda_append(&headers, T("X-Content-Type-Options"), T("NoSniff, x")));
    IS(OK, fiorrudda_append(&headers, T("Content-Type"), T("Text/HTML;charset=utf-8")));
    IS(OK, fiorrudda_nosniff(&headers));
    IS(OK, fiorrudda_essence(&headers, room, sizeof room, &len));
    HOLDS(wrote("text/html"));
    fiorrudda_free(&headers);
    IS(OK, fiorrudda_source_matches(T("https://*.example"), T("https://a.example/x"), T("https://p.test/"), 0));
    IS(NO, fiorrudda_source_matches(T("https://*.example"), T("https://example/x"), T("https://p.test/"), 0));
    IS(NO, fiorrudda_source_matches(T("https://a.example/y/"), T("https://a.example/x"), T("https://p.test/"), 0));
    IS(OK, fiorrudda_source_matches(T("https://a.example/y/"), T("https://a.example/x"), T("https://p.test/"), 1));
    IS(OK, fiorrudda_source_matches(T("'self'"), T("https://p.test/x"), T("https://p.test/"), 0));
    IS(NO, fiorrudda_source_matches(T("'none'"), T("https://p.test/x"), T("https://p.test/"), 0));
    IS(NOT_HTTP, fiorrudda_source_matches(T("*"), T("https://p.test/x"), T("data:,x"), 0));
    IS(NOT_A_URL, fiorrudda_source_matches(T("*"), T("x"), T("https://p.test/"), 0));
}

int main(void) {
    memset(room, 0xEE, sizeof room);
    lists();
    cors();
    resource_policies();
    origins();
    referrers();
    integrity();
    hosts();
    requests();
    answers();
    puts("rules: ok");
    return 0;
}
