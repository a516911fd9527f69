// Each call that allocates, with each of its allocations refused in turn: its code, and what is left then. The three
// functions by which the library allocates stand here in place of those in the archive.
#include "holds.h"

static size_t allowed = SIZE_MAX, blocks;

struct tried { bool ok; void *at; };
static _Alignas(16) char nothing[16];

static struct tried tried(void *at) { return (struct tried){at != NULL, at ? at : nothing}; }
static bool may(void) { return allowed == 0 ? false : (allowed--, true); }

struct tried rattle_alloc(size_t size, size_t align) {
    void *at = may() ? malloc(size ? size : align) : NULL;
    blocks += at != NULL;
    return tried(at);
}

struct tried rattle_realloc(void *at, size_t kept, size_t size, size_t align) {
    (void)kept;
    return tried(may() ? realloc(at, size ? size : align) : NULL);
}

void rattle_dealloc(void *at) {
    blocks--;
    free(at);
}

static fiorrudda_handle headers, book, fresh;
static uint8_t room[64];
static size_t len;

static uint32_t make_load(void) { return fiorrudda_load(&fresh, FIORRUDDA_LOAD_IMAGE, T("https://b.example/a-path-of-more-than-thirty-bytes")); }
static uint32_t make_headers(void) { return fiorrudda_headers(&fresh); }
static uint32_t make_book(void) { return fiorrudda_book(&fresh); }
static uint32_t append(void) { return fiorrudda_append(&headers, T("A-name-of-thirty-bytes-or-more-x"), T("1234567890123456789012345")); }
static uint32_t get(void) { return fiorrudda_get(&headers, T("Long"), room, sizeof room, &len); }
static uint32_t resource_policy(void) { return fiorrudda_resource_policy(T("https://a.example/"), T("https://a.example/"), &headers) == FIORRUDDA_NO ? FIORRUDDA_OK : FIORRUDDA_OUT_OF_MEMORY; }
static uint32_t origin(void) { return fiorrudda_origin(T("https://a-host-of-a-long-name.example:444/"), room, sizeof room, &len); }
static uint32_t same_origin(void) { return fiorrudda_same_origin(T("https://a.example/"), T("https://a.example/x")); }
static uint32_t same_site(void) { return fiorrudda_same_site(T("https://a.example/"), T("https://b.a.example/x")); }
static uint32_t trustworthy(void) { return fiorrudda_trustworthy(T("https://a.example/")); }
static uint32_t bad_port(void) { return fiorrudda_bad_port(T("https://a.example:25/")); }
static uint32_t referrer(void) { return fiorrudda_referrer(FIORRUDDA_REFERRER_UNSAFE_URL, T("https://a.example/a-long-path-of-some-bytes"), T("https://b.example/"), room, sizeof room, &len); }
static uint32_t integrity(void) { return fiorrudda_integrity(T("sha256-47DEQpj8HBSa+/TImW+5JCeuQeRkm5NMpJWZG3hSuFU="), T("")); }
static uint32_t sts(void) { uint64_t age; uint32_t subdomains; return fiorrudda_sts(T("max-age=1; includeSubDomains"), &age, &subdomains); }
static uint32_t note_host(void) { return fiorrudda_note_host(&book, T("a-host-of-a-long-name.example"), T("max-age=9"), 1); }
static uint32_t known_host(void) { return fiorrudda_known_host(&book, T("a-host-of-a-long-name.example"), 1); }

static uint32_t book_text(void) { uint32_t code = fiorrudda_book_text(&book, room, sizeof room, &len); return code == FIORRUDDA_TOO_SHORT ? FIORRUDDA_OK : code; }

static uint32_t book_of_text(void) {
    uint64_t line;
    uint32_t reason;
    return fiorrudda_book_of_text(&fresh, T("fiorrudda book 1\nhosts 2\n9 1 33:a-host-of-thirty-bytes-or-so.test\n9 1 8:api.test\n"
        "entries 2\n0 600 1 0 34:a-key-of-thirty-bytes-or-more.test 1:o 1:u 3:PUT\n"
        "0 600 1 1 34:a-key-of-thirty-bytes-or-more.test 1:o 1:u 3:x-a\n"), &line, &reason);
}

// The text of a play, or the place of a refusal: the same as with all memory, or nothing is written, nor its length.
static uint32_t played(const uint8_t *scenario, size_t size, uint32_t wanted) {
    static uint8_t known[4096], text[sizeof known];
    size_t known_len, was = allowed;
    allowed = SIZE_MAX;
    HOLDS(fiorrudda_play(scenario, size, known, sizeof known, &known_len) == wanted);
    allowed = was;
    len = 77;
    memset(text, 0xEE, sizeof text);
    uint32_t code = fiorrudda_play(scenario, size, text, sizeof text, &len);
    if (code == wanted) {
        HOLDS(len == known_len && !memcmp(text, known, len));
        return FIORRUDDA_OK;
    }
    HOLDS(len == 77);
    for (size_t at = 0; at < sizeof text; at++) HOLDS(text[at] == 0xEE);
    return code;
}

#define ALLOWS "[[\"Access-Control-Allow-Origin\",\"*\"],[\"Access-Control-Allow-Methods\",\"PUT\"]]"
#define SERVERS "\"servers\":[{\"origin\":\"https://b.example\",\"rules\":[{\"status\":200,\"headers\":" ALLOWS "}]}]"
#define POLICY "\"headers\":[[\"Content-Security-Policy\",\"connect-src 'self' https://b.example\"]]"
#define PUT "\"method\":\"PUT\",\"body\":\"a body of more than thirty bytes\""
#define ASKED "{\"fetch\":{\"url\":\"https://b.example/${status}\"," PUT "}}"
#define DOCUMENT "{\"url\":\"https://a.example/\"," POLICY ",\"script\":[{\"repeat\":2,\"do\":[" ASKED "]}]}"
#define HOSTS "\"hsts\":[{\"host\":\"a-host-of-a-long-name.example\",\"subdomains\":true,\"until\":9}]"
#define PLAYED "{\"format\":1," HOSTS "," SERVERS ",\"documents\":[" DOCUMENT "]}"
#define TOLD "\"headers\":[[\"Content-Security-Policy\",\"connect-src 'none'; report-uri /a-path-of-thirty-bytes-or-more\"]]"
#define REPORTED "{\"format\":1,\"documents\":[{\"url\":\"https://a.example/\"," TOLD ",\"script\":[{\"fetch\":{\"url\":\"/\"}}]}]}"
#define REFUSED "{\"format\":1," SERVERS ",\"documents\":[{\"url\":\"/\"}]}"

// The text of the reports, or nothing.
static uint32_t reports(void) {
    len = 77;
    room[0] = 0xEE;
    uint32_t code = fiorrudda_reports(T(REPORTED), room, sizeof room, &len);
    HOLDS(code == FIORRUDDA_OK || code == FIORRUDDA_TOO_SHORT || (len == 77 && room[0] == 0xEE));
    return code == FIORRUDDA_TOO_SHORT ? FIORRUDDA_OK : code;
}

// The line of an audit, likewise.
static uint32_t audit(void) {
    static const uint8_t said[] = "not a play: History 0\n";
    len = 77;
    memset(room, 0xEE, sizeof said);
    uint32_t code = fiorrudda_audit(T(PLAYED), T("?"), room, sizeof room, &len);
    if (code == FIORRUDDA_NO) {
        HOLDS(len == sizeof said - 1 && !memcmp(room, said, len));
        return FIORRUDDA_OK;
    }
    HOLDS(len == 77 && room[0] == 0xEE);
    return code;
}

static uint32_t play(void) { return played(T(PLAYED), FIORRUDDA_OK); }
static uint32_t play_none(void) { return played(T("{\"format\":1,\"documents\":[]}"), FIORRUDDA_OK); }
static uint32_t play_refused(void) { return played(T(REFUSED), FIORRUDDA_NO); }

static uint32_t essence(void) { return fiorrudda_essence(&headers, room, sizeof room, &len); }
static uint32_t source_matches(void) { return fiorrudda_source_matches(T("https://a-host-of-a-long-name.example/p"), T("https://a-host-of-a-long-name.example/p"), T("https://a.example/"), 0); }

static fiorrudda_handle client, request, fetch, policies, found, shown;

// The rules on a client's request, one after the other. A handle in which something was to be made holds what it held
// where memory is refused.
static uint32_t on_request(void) {
    uint32_t code, error;
    uint64_t age;
    if ((code = fiorrudda_client(&client, T("https://a-host-of-a-long-name.example/"), T("https://a.example/"), 0))) return code;
    if ((code = fiorrudda_request(&request, T("PUT"), T("https://b.example/a-path-of-more-than-thirty-bytes")))) return code;
    if ((code = fiorrudda_request_header(&request, T("X-A"), T("a value of more than thirty bytes")))) return code;
    if ((code = fiorrudda_append(&headers, T("Content-Security-Policy"), T("connect-src 'self'")))) return code;
    void *was = policies.at;
    if ((code = fiorrudda_policies(&policies, &headers))) { HOLDS(policies.at == was); return code; }
    was = found.at;
    code = fiorrudda_check(&found, &policies, &client, &request, T("https://another-host-of-a-long-name.example/"), FIORRUDDA_CHECK_RESPONSE);
    if (code != FIORRUDDA_NO) { HOLDS(found.at == was); return code; }
    code = fiorrudda_mixed_upgraded(&client, &request, T("http://another-host-of-a-long-name.example/"));
    if (code != FIORRUDDA_NO) return code;
    if ((code = fiorrudda_mixed_blocked(&client, &request, T("http://another-host-of-a-long-name.example/")))) return code;
    len = 77;
    if ((code = fiorrudda_preflight(&client, &request, room, 0, &len)) != FIORRUDDA_TOO_SHORT) { HOLDS(len == 77); return code; }
    if ((code = fiorrudda_verdict(&client, &request, &headers, 200, &error, &age)) != FIORRUDDA_NO) return code;
    if ((code = fiorrudda_refused_name(&client, &request, &headers, 200, room, sizeof room, &len)) != FIORRUDDA_NO) return code;
    was = shown.at;
    if ((code = fiorrudda_filtered(&shown, &client, &request, &headers, 200, FIORRUDDA_TAINTING_CORS, &error))) { HOLDS(shown.at == was); return code; }
    if ((code = fiorrudda_type_blocked(&request, &headers)) != FIORRUDDA_NO) return code;
    code = fiorrudda_nosniff_blocked(&request, &headers);
    return code == FIORRUDDA_NO ? FIORRUDDA_OK : code;
}

static uint32_t unsafe_name(void) { return fiorrudda_unsafe_name(&headers, 0, room, sizeof room, &len); }
static uint32_t exposed_name(void) { return fiorrudda_exposed_name(&headers, false, 0, room, sizeof room, &len); }
static uint32_t forbidden_header(void) { return fiorrudda_forbidden_header(T("X-HTTP-Method"), T("PUT, PATCH, TRACE")); }

// What came of the act that is to be done next, of a PUT that a preflight goes before.
static uint32_t answered(uint32_t act, bool preflight) {
    size_t used;
    uint32_t reply;
    switch (act) {
    case FIORRUDDA_ACT_ASK: return fiorrudda_ask(&fetch, &book, &reply);
    case FIORRUDDA_ACT_SEND: {
        uint32_t code = fiorrudda_to_send(&fetch, room, 0, &len);
        return code == FIORRUDDA_TOO_SHORT ? fiorrudda_input(&fetch, FIORRUDDA_INPUT_SENT) : code;
    }
    case FIORRUDDA_ACT_READ_HEAD:
        return preflight ? fiorrudda_feed(&fetch, T("HTTP/1.1 204 X\r\nAccess-Control-Allow-Origin: *\r\n"
            "Access-Control-Allow-Methods: PUT\r\nAccess-Control-Allow-Headers: x-a\r\n\r\n"), &used)
            : fiorrudda_feed(&fetch, T("HTTP/1.1 200 X\r\nAccess-Control-Allow-Origin: *\r\nContent-Length: 40\r\n\r\n"), &used);
    case FIORRUDDA_ACT_READ_BODY: return fiorrudda_feed(&fetch, T("0123456789012345678901234567890123456789"), &used);
    default: return fiorrudda_input(&fetch, FIORRUDDA_INPUT_TOLD);
    }
}

// A fetch that is gone takes nothing, and has nothing.
static void gone(void) {
    uint64_t number;
    size_t used;
    uint32_t reply;
    for (uint32_t input = 0; input < 7; input++) HOLDS(fiorrudda_input(&fetch, input) == FIORRUDDA_NOT_AWAITED);
    for (uint32_t which = 0; which < 12; which++) HOLDS(fiorrudda_text(&fetch, which, 0, room, sizeof room, &len) == FIORRUDDA_NO);
    for (uint32_t which = 0; which < 16; which++) HOLDS(fiorrudda_number(&fetch, which, &number) == FIORRUDDA_NO);
    HOLDS(fiorrudda_feed(&fetch, T("x"), &used) == FIORRUDDA_NOT_AWAITED);
    HOLDS(fiorrudda_ask(&fetch, &book, &reply) == FIORRUDDA_NOT_AWAITED);
    HOLDS(fiorrudda_to_send(&fetch, room, sizeof room, &len) == FIORRUDDA_NO);
}

// A whole fetch. Where memory is refused, a handle holds what it held, or the fetch is gone.
static uint32_t whole(void) {
    uint32_t code, fault, header, act = FIORRUDDA_ACT_GONE;
    void *was = client.at;
    if ((code = fiorrudda_client(&client, T("https://a-host-of-a-long-name.example/"), T("https://a.example/"), 0))) { HOLDS(client.at == was); return code; }
    if ((code = fiorrudda_client_policy(&client, T("connect-src 'self' 'nonce-x'"), false))) return code;
    if ((code = fiorrudda_client_cookie(&client, T("https://a-host-of-a-long-name.example/"), T("a-cookie=of-more-than-thirty-bytes")))) return code;
    was = request.at;
    if ((code = fiorrudda_request(&request, T("PUT"), T("https://b.example/a-path-of-more-than-thirty-bytes")))) { HOLDS(request.at == was); return code; }
    if ((code = fiorrudda_request_header(&request, T("X-A"), T("a value of more than thirty bytes")))) return code;
    if ((code = fiorrudda_request_text(&request, FIORRUDDA_REQUEST_BODY, T("a body of more than thirty bytes, or so")))) return code;
    was = fetch.at;
    if ((code = fiorrudda_fetch(&fetch, &client, &request, 1, 1000, &fault, &header))) { HOLDS(fetch.at == was); return code; }
    for (size_t heads = 0;;) {
        HOLDS(fiorrudda_act(&fetch, &act) == FIORRUDDA_OK);
        if (act == FIORRUDDA_ACT_OVER) return FIORRUDDA_OK;
        heads += act == FIORRUDDA_ACT_SEND;
        code = answered(act, heads == 1);
        if (code == FIORRUDDA_OK) continue;
        bool sending = act == FIORRUDDA_ACT_SEND;
        HOLDS(fiorrudda_act(&fetch, &act) == FIORRUDDA_OK && (act == FIORRUDDA_ACT_GONE || sending));
        if (act == FIORRUDDA_ACT_GONE) gone();
        return code;
    }
}

// Judges the fetch. Where memory is refused it is freed, `found` holds the violations that it held, and no act is told.
static uint32_t judged(size_t left, uint32_t wanted) {
    uint32_t act = 77, policy, enforced;
    void *was = found.at;
    allowed = left;
    uint32_t code = fiorrudda_judge(&fetch, &book, &found, &act);
    allowed = SIZE_MAX;
    if (code == FIORRUDDA_OK) {
        HOLDS(act == wanted);
        return code;
    }
    HOLDS(act == 77 && found.at == was && fiorrudda_violation(&found, 0, &policy, &enforced) == FIORRUDDA_OK && enforced == 1);
    HOLDS(fetch.at == NULL && fiorrudda_act(&fetch, &act) == FIORRUDDA_WRONG_HANDLE);
    return code;
}

// A violation that `found` holds before.
static void find(void) {
    HOLDS(fiorrudda_client(&client, T("https://a.example/"), T("https://a.example/"), 0) == FIORRUDDA_OK);
    HOLDS(fiorrudda_load(&request, FIORRUDDA_LOAD_IMAGE, T("https://b.example/i")) == FIORRUDDA_OK);
    fiorrudda_handle list = {0};
    HOLDS(fiorrudda_headers(&list) == FIORRUDDA_OK);
    HOLDS(fiorrudda_append(&list, T("Content-Security-Policy"), T("img-src 'none'")) == FIORRUDDA_OK);
    HOLDS(fiorrudda_policies(&policies, &list) == FIORRUDDA_OK);
    fiorrudda_free(&list);
    HOLDS(fiorrudda_check(&found, &policies, &client, &request, T(""), FIORRUDDA_CHECK_ENFORCED) == FIORRUDDA_NO);
}

// A PUT to a host that is known, past two report-only violations and the preflight cache.
static void begin(void) {
    uint32_t fault, header;
    find();
    HOLDS(fiorrudda_client(&client, T("http://a-host-of-a-long-name.example/"), T("http://a.example/"), 0) == FIORRUDDA_OK);
    HOLDS(fiorrudda_client_policy(&client, T("connect-src 'none', default-src 'none'"), false) == FIORRUDDA_OK);
    HOLDS(fiorrudda_request(&request, T("PUT"), T("http://known.example/a-path-of-more-than-thirty-bytes")) == FIORRUDDA_OK);
    HOLDS(fiorrudda_request_header(&request, T("X-A"), T("a value of more than thirty bytes")) == FIORRUDDA_OK);
    HOLDS(fiorrudda_fetch(&fetch, &client, &request, 1, 1000, &fault, &header) == FIORRUDDA_OK);
}

static uint32_t judge_request(void) {
    size_t left = allowed;
    allowed = SIZE_MAX;
    begin();
    return judged(left, FIORRUDDA_ACT_SEND);
}

static void answer(const uint8_t *head, size_t size) {
    size_t used;
    HOLDS(fiorrudda_input(&fetch, FIORRUDDA_INPUT_SENT) == FIORRUDDA_OK);
    HOLDS(fiorrudda_feed(&fetch, head, size, &used) == FIORRUDDA_OK && used == size);
}

// What a preflight allows, which the book learns.
static uint32_t judge_preflight(void) {
    size_t left = allowed;
    allowed = SIZE_MAX;
    begin();
    HOLDS(judged(SIZE_MAX, FIORRUDDA_ACT_SEND) == FIORRUDDA_OK);
    answer(T("HTTP/1.1 204 X\r\nAccess-Control-Allow-Origin: *\r\nAccess-Control-Allow-Methods: PUT\r\n"
        "Access-Control-Allow-Headers: x-a\r\n\r\n"));
    find();
    return judged(left, FIORRUDDA_ACT_SEND);
}

// An answer whose host the book notes, and that redirects to a server which is asked first.
static uint32_t judge_answer(void) {
    size_t left = allowed;
    allowed = SIZE_MAX;
    HOLDS(judge_preflight() == FIORRUDDA_OK);
    answer(T("HTTP/1.1 307 X\r\nAccess-Control-Allow-Origin: *\r\nStrict-Transport-Security: max-age=9\r\n"
        "Location: https://another-host-of-a-long-name.example/d\r\n\r\n"));
    find();
    return judged(left, FIORRUDDA_ACT_SEND);
}

static const struct { const char *name; uint32_t (*call)(void); } calls[] = {
    {"load", make_load}, {"headers", make_headers}, {"book", make_book}, {"append", append}, {"get", get},
    {"resource_policy", resource_policy}, {"origin", origin}, {"same_origin", same_origin},
    {"same_site", same_site}, {"trustworthy", trustworthy}, {"bad_port", bad_port},
    {"referrer", referrer}, {"integrity", integrity}, {"sts", sts}, {"note_host", note_host},
    {"known_host", known_host}, {"essence", essence}, {"source_matches", source_matches}, {"whole", whole},
    {"judge_request", judge_request}, {"judge_preflight", judge_preflight}, {"judge_answer", judge_answer},
    {"on_request", on_request}, {"unsafe_name", unsafe_name}, {"exposed_name", exposed_name},
    {"forbidden_header", forbidden_header}, {"book_text", book_text}, {"book_of_text", book_of_text},
    {"play", play}, {"play_none", play_none}, {"play_refused", play_refused}, {"audit", audit}, {"reports", reports},
};

// What the header list and the book hold is as it was: told by calls that the refused ones are not.
static bool kept(void) {
    bool is = fiorrudda_get(&headers, T("A-name-of-thirty-bytes-or-more-x"), room, sizeof room, &len) == FIORRUDDA_NO;
    is = is && fiorrudda_get(&headers, T("Long"), room, sizeof room, &len) == FIORRUDDA_OK && len == 30;
    is = is && fiorrudda_known_host(&book, T("a-host-of-a-long-name.example"), 1) == FIORRUDDA_NO;
    return is && fiorrudda_known_host(&book, T("known.example"), 1) == FIORRUDDA_OK;
}

int main(void) {
    for (size_t at = 0; at < sizeof calls / sizeof *calls; at++) {
        size_t n = 0;
        for (uint32_t code = FIORRUDDA_OUT_OF_MEMORY; code != FIORRUDDA_OK; n++) {
            HOLDS(fiorrudda_headers(&headers) == FIORRUDDA_OK && fiorrudda_book(&book) == FIORRUDDA_OK);
            HOLDS(fiorrudda_append(&headers, T("Long"), T("a value of thirty bytes, or so")) == FIORRUDDA_OK);
            HOLDS(fiorrudda_append(&headers, T("Content-Type"), T("text/a-subtype-of-thirty-bytes-or-so")) == FIORRUDDA_OK);
            HOLDS(fiorrudda_append(&headers, T("Access-Control-Expose-Headers"), T("X-A-name-of-thirty-bytes-or-more")) == FIORRUDDA_OK);
            HOLDS(fiorrudda_note_host(&book, T("known.example"), T("max-age=9"), 1) == FIORRUDDA_OK);
            // A host that is looked for is known once it was noted.
            if (calls[at].call == known_host) HOLDS(note_host() == FIORRUDDA_OK);
            allowed = n;
            code = calls[at].call();
            allowed = SIZE_MAX;
            HOLDS(code == FIORRUDDA_OK || code == FIORRUDDA_OUT_OF_MEMORY);
            HOLDS(code == FIORRUDDA_OK || calls[at].call == known_host || kept());
            HOLDS(code == FIORRUDDA_OK || fresh.at == NULL);
            HOLDS(n < 10000);
        }
        printf("memory: %s allocates %zu times\n", calls[at].name, n - 1);
        fiorrudda_free(&fresh);
    }
    fiorrudda_free(&headers);
    fiorrudda_free(&book);
    fiorrudda_free(&client);
    fiorrudda_free(&request);
    fiorrudda_free(&fetch);
    fiorrudda_free(&policies);
    fiorrudda_free(&found);
    fiorrudda_free(&shown);
    HOLDS(blocks == 0);
    puts("memory: ok");
    return 0;
}
