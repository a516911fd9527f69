// Policies, mixed content, preflights and what a page sees of an answer, from C. Ends with the line of the first case
// that is not as it should be.
#include "holds.h"

static uint8_t room[1024];
static size_t len;
static fiorrudda_handle none, client, request, headers, made;

// What the last call wrote is this text, and the rest of the room is as it was.
static bool wrote(const char *text) {
    bool is = len == strlen(text) && memcmp(room, text, len) == 0;
    for (size_t at = len; at < sizeof room; at++) is = is && room[at] == 0xEE;
    memset(room, 0xEE, sizeof room);
    return is;
}

// The last call wrote nothing.
static bool kept(void) {
    bool is = true;
    for (size_t at = 0; at < sizeof room; at++) is = is && room[at] == 0xEE;
    return is;
}

// A header list of one header, in the handle of lists.
static void list(const char *name, const char *value) {
    IS(OK, fiorrudda_headers(&headers));
    IS(OK, fiorrudda_append(&headers, (const uint8_t *)name, strlen(name), (const uint8_t *)value, strlen(value)));
}

static void page(const char *url) {
    const uint8_t *at = (const uint8_t *)url;
    IS(OK, fiorrudda_client(&client, at, strlen(url), at, strlen(url), FIORRUDDA_REFERRER_DEFAULT));
}

static void load(uint32_t kind, const char *url) {
    IS(OK, fiorrudda_load(&request, kind, (const uint8_t *)url, strlen(url)));
}

static void lists(void) {
    list("A", "1");
    IS(OK, fiorrudda_append(&headers, T("B"), T("")));
    IS(OK, fiorrudda_name_at(&headers, 0, room, sizeof room, &len));
    HOLDS(wrote("A"));
    IS(OK, fiorrudda_value_at(&headers, 1, room, sizeof room, &len));
    HOLDS(wrote(""));
    IS(NO, fiorrudda_name_at(&headers, 2, room, sizeof room, &len));
    IS(NO, fiorrudda_value_at(&headers, SIZE_MAX, room, sizeof room, &len));
    IS(TOO_SHORT, fiorrudda_value_at(&headers, 0, room, 0, &len));
    HOLDS(len == 1 && kept());
    IS(WRONG_HANDLE, fiorrudda_name_at(&none, 0, room, sizeof room, &len));
    IS(WRONG_HANDLE, fiorrudda_value_at(&client, 0, room, sizeof room, &len));
}

static void names(void) {
    list("X-B", "1");
    IS(OK, fiorrudda_append(&headers, T("Accept"), T("text/html")));
    IS(OK, fiorrudda_append(&headers, T("Content-Type"), T("application/json")));
    IS(OK, fiorrudda_unsafe_name(&headers, 0, room, sizeof room, &len));
    HOLDS(wrote("content-type"));
    IS(OK, fiorrudda_unsafe_name(&headers, 1, room, sizeof room, &len));
    HOLDS(wrote("x-b"));
    IS(NO, fiorrudda_unsafe_name(&headers, 2, room, sizeof room, &len));
    IS(WRONG_HANDLE, fiorrudda_unsafe_name(&none, 0, room, sizeof room, &len));
    list("Access-Control-Expose-Headers", "X-A, x-b");
    IS(OK, fiorrudda_exposed_name(&headers, true, 1, room, sizeof room, &len));
    HOLDS(wrote("x-b"));
    IS(NO, fiorrudda_exposed_name(&headers, false, 2, room, sizeof room, &len));
    list("Access-Control-Expose-Headers", "*");
    IS(OK, fiorrudda_exposed_name(&headers, false, 0, room, sizeof room, &len));
    HOLDS(wrote("Access-Control-Expose-Headers"));
    IS(OK, fiorrudda_exposed_name(&headers, true, 0, room, sizeof room, &len));
    HOLDS(wrote("*"));
    IS(WRONG_HANDLE, fiorrudda_exposed_name(&none, false, 0, room, sizeof room, &len));
    IS(OK, fiorrudda_forbidden_header(T("Cookie"), T("a=b")));
    IS(OK, fiorrudda_forbidden_header(T("sec-fetch-mode"), T("")));
    IS(OK, fiorrudda_forbidden_header(T("X-HTTP-Method"), T("PUT, trace")));
    IS(NO, fiorrudda_forbidden_header(T("X-HTTP-Method"), T("PUT")));
    IS(NOT_A_HEADER, fiorrudda_forbidden_header(T("a b"), T("")));
    IS(NOT_A_HEADER, fiorrudda_forbidden_header(T("a"), T("\n")));
}

static void mixed(void) {
    page("https://a.example/");
    load(FIORRUDDA_LOAD_IMAGE, "http://b.example/i");
    IS(OK, fiorrudda_mixed_upgraded(&client, &request, T("")));
    IS(OK, fiorrudda_mixed_blocked(&client, &request, T("")));
    IS(NO, fiorrudda_mixed_blocked(&client, &request, T("https://b.example/i")));
    load(FIORRUDDA_LOAD_IMAGE, "http://127.0.0.2/i");
    IS(NO, fiorrudda_mixed_upgraded(&client, &request, T("")));
    IS(NO, fiorrudda_mixed_blocked(&client, &request, T("")));
    load(FIORRUDDA_LOAD_SCRIPT, "http://b.example/s");
    IS(NO, fiorrudda_mixed_upgraded(&client, &request, T("")));
    IS(NOT_A_URL, fiorrudda_mixed_blocked(&client, &request, T("\xff")));
    IS(NOT_A_URL, fiorrudda_mixed_upgraded(&client, &request, T("/")));
    IS(NOT_HTTP, fiorrudda_mixed_blocked(&client, &request, T("data:,x")));
    load(FIORRUDDA_LOAD_IMAGE, "data:,x");
    IS(NO_REQUEST, fiorrudda_mixed_blocked(&client, &request, T("https://b.example/")));
    load(FIORRUDDA_LOAD_IMAGE, "http://[");
    IS(NO_REQUEST, fiorrudda_mixed_upgraded(&client, &request, T("")));
    page("http://a.example/");
    load(FIORRUDDA_LOAD_IMAGE, "http://b.example/i");
    IS(NO, fiorrudda_mixed_upgraded(&client, &request, T("")));
    IS(NO, fiorrudda_mixed_blocked(&client, &request, T("")));
    IS(WRONG_HANDLE, fiorrudda_mixed_blocked(&none, &request, T("")));
    IS(WRONG_HANDLE, fiorrudda_mixed_blocked(&client, &none, T("")));
    IS(WRONG_HANDLE, fiorrudda_mixed_upgraded(&headers, &request, T("")));
    IS(WRONG_HANDLE, fiorrudda_mixed_upgraded(&client, &headers, T("")));
}

static void policies(void) {
    fiorrudda_handle policies = {0}, found = {0};
    uint32_t policy = 77, enforced = 77;
    list("Content-Security-Policy", "img-src 'self'; upgrade-insecure-requests, default-src *");
    IS(OK, fiorrudda_append(&headers, T("content-security-policy-report-only"), T("img-src https:")));
    IS(OK, fiorrudda_policies(&policies, &headers));
    IS(OK, fiorrudda_upgrades(&policies));
    page("https://a.example/");
    load(FIORRUDDA_LOAD_IMAGE, "http://u:p@b.example/i#f");
    IS(NO, fiorrudda_check(&found, &policies, &client, &request, T(""), FIORRUDDA_CHECK_ENFORCED));
    IS(OK, fiorrudda_violation(&found, 0, &policy, &enforced));
    HOLDS(policy == 0 && enforced == 1);
    IS(OK, fiorrudda_violation_directive(&found, 0, room, sizeof room, &len));
    HOLDS(wrote("img-src"));
    IS(OK, fiorrudda_violation_url(&found, 0, room, sizeof room, &len));
    HOLDS(wrote("http://b.example/i"));
    IS(NO, fiorrudda_violation(&found, 1, &policy, &enforced));
    IS(NO, fiorrudda_violation_directive(&found, 1, room, sizeof room, &len));
    IS(NO, fiorrudda_violation_url(&found, 1, room, sizeof room, &len));
    IS(TOO_SHORT, fiorrudda_violation_url(&found, 0, room, 1, &len));
    HOLDS(len == 18 && kept());
    IS(NO, fiorrudda_check(&found, &policies, &client, &request, T(""), FIORRUDDA_CHECK_REPORT_ONLY));
    IS(OK, fiorrudda_violation(&found, 0, &policy, &enforced));
    HOLDS(policy == 2 && enforced == 0);
    IS(NO, fiorrudda_check(&found, &policies, &client, &request, T(""), FIORRUDDA_CHECK_RESPONSE));
    IS(OK, fiorrudda_violation(&found, 1, &policy, &enforced));
    HOLDS(policy == 2 && enforced == 0);
    // A redirect to what the policy allows, and one to what it does not.
    load(FIORRUDDA_LOAD_IMAGE, "/i");
    IS(OK, fiorrudda_check(&found, &policies, &client, &request, T(""), FIORRUDDA_CHECK_ENFORCED));
    IS(NO, fiorrudda_violation(&found, 0, &policy, &enforced));
    IS(NO, fiorrudda_check(&found, &policies, &client, &request, T("https://b.example/"), FIORRUDDA_CHECK_ENFORCED));
    IS(OK, fiorrudda_violation_url(&found, 0, room, sizeof room, &len));
    HOLDS(wrote("https://a.example/i"));
    IS(NO_SUCH_NUMBER, fiorrudda_check(&found, &policies, &client, &request, T(""), 3));
    IS(NOT_A_URL, fiorrudda_check(&found, &policies, &client, &request, T("x"), 0));
    IS(NOT_HTTP, fiorrudda_check(&found, &policies, &client, &request, T("data:,x"), 0));
    IS(WRONG_HANDLE, fiorrudda_check(&found, &none, &client, &request, T(""), 0));
    IS(WRONG_HANDLE, fiorrudda_check(&found, &headers, &client, &request, T(""), 0));
    IS(WRONG_HANDLE, fiorrudda_check(&found, &policies, &none, &request, T(""), 0));
    IS(WRONG_HANDLE, fiorrudda_check(&found, &policies, &headers, &request, T(""), 0));
    IS(WRONG_HANDLE, fiorrudda_check(&found, &policies, &client, &none, T(""), 0));
    IS(WRONG_HANDLE, fiorrudda_check(&found, &policies, &client, &headers, T(""), 0));
    // What was found before is held still.
    IS(OK, fiorrudda_violation_url(&found, 0, room, sizeof room, &len));
    HOLDS(wrote("https://a.example/i"));
    fiorrudda_free(&found);
    IS(WRONG_HANDLE, fiorrudda_violation(&found, 0, &policy, &enforced));
    IS(WRONG_HANDLE, fiorrudda_violation_directive(&policies, 0, room, sizeof room, &len));
    IS(WRONG_HANDLE, fiorrudda_violation_url(&none, 0, room, sizeof room, &len));
    load(FIORRUDDA_LOAD_IMAGE, "http://[");
    IS(NO_REQUEST, fiorrudda_check(&found, &policies, &client, &request, T(""), 0));
    IS(WRONG_HANDLE, fiorrudda_upgrades(&client));
    IS(WRONG_HANDLE, fiorrudda_upgrades(&none));
    void *was = policies.at;
    IS(WRONG_HANDLE, fiorrudda_policies(&policies, &client));
    IS(WRONG_HANDLE, fiorrudda_policies(&policies, &none));
    HOLDS(was != NULL && policies.at == was);
    IS(OK, fiorrudda_headers(&headers));
    IS(OK, fiorrudda_policies(&policies, &headers));
    IS(NO, fiorrudda_upgrades(&policies));
    fiorrudda_free(&policies);
    fiorrudda_free(&found);
}

static void preflights(void) {
    uint32_t error = 77;
    uint64_t age = 77;
    page("https://a.example/p");
    IS(OK, fiorrudda_request(&request, T("PUT"), T("https://b.example/d?e")));
    IS(OK, fiorrudda_request_header(&request, T("X-B"), T("1")));
    IS(OK, fiorrudda_request_header(&request, T("X-A"), T("1")));
    IS(OK, fiorrudda_preflight(&client, &request, room, sizeof room, &len));
    HOLDS(wrote("OPTIONS /d?e HTTP/1.1\r\nHost: b.example\r\nAccept: */*\r\nAccess-Control-Request-Method: PUT\r\n"
        "Access-Control-Request-Headers: x-a,x-b\r\nUser-Agent: fetchplay/1\r\nAccept-Encoding: identity\r\n"
        "Referer: https://a.example/\r\nOrigin: https://a.example\r\nConnection: close\r\n\r\n"));
    IS(TOO_SHORT, fiorrudda_preflight(&client, &request, room, 10, &len));
    HOLDS(len > 200 && kept());
    IS(OK, fiorrudda_headers(&headers));
    IS(NO, fiorrudda_verdict(&client, &request, &headers, 204, &error, &age));
    HOLDS(error == FIORRUDDA_ERROR_PREFLIGHT_CORS && age == 77);
    list("Access-Control-Allow-Origin", "https://a.example");
    IS(NO, fiorrudda_verdict(&client, &request, &headers, 404, &error, &age));
    HOLDS(error == FIORRUDDA_ERROR_PREFLIGHT_STATUS);
    IS(NO, fiorrudda_verdict(&client, &request, &headers, 204, &error, &age));
    HOLDS(error == FIORRUDDA_ERROR_PREFLIGHT_METHOD);
    IS(NO, fiorrudda_refused_name(&client, &request, &headers, 204, room, sizeof room, &len));
    IS(OK, fiorrudda_append(&headers, T("Access-Control-Allow-Methods"), T("PUT,,a b")));
    IS(NO, fiorrudda_verdict(&client, &request, &headers, 204, &error, &age));
    HOLDS(error == FIORRUDDA_ERROR_PREFLIGHT_LIST);
    list("Access-Control-Allow-Origin", "https://a.example");
    IS(OK, fiorrudda_append(&headers, T("Access-Control-Allow-Methods"), T("PUT")));
    IS(OK, fiorrudda_append(&headers, T("Access-Control-Allow-Headers"), T("X-A")));
    IS(NO, fiorrudda_verdict(&client, &request, &headers, 204, &error, &age));
    HOLDS(error == FIORRUDDA_ERROR_PREFLIGHT_HEADER && age == 77);
    IS(OK, fiorrudda_refused_name(&client, &request, &headers, 204, room, sizeof room, &len));
    HOLDS(wrote("x-b"));
    IS(TOO_SHORT, fiorrudda_refused_name(&client, &request, &headers, 204, room, 2, &len));
    HOLDS(len == 3 && kept());
    IS(OK, fiorrudda_append(&headers, T("Access-Control-Allow-Headers"), T("*")));
    IS(OK, fiorrudda_append(&headers, T("Access-Control-Max-Age"), T("600")));
    error = 77;
    IS(OK, fiorrudda_verdict(&client, &request, &headers, 204, &error, &age));
    HOLDS(error == 77 && age == 600);
    IS(NO, fiorrudda_refused_name(&client, &request, &headers, 204, room, sizeof room, &len));
    IS(WRONG_HANDLE, fiorrudda_verdict(&none, &request, &headers, 204, &error, &age));
    IS(WRONG_HANDLE, fiorrudda_verdict(&headers, &request, &headers, 204, &error, &age));
    IS(WRONG_HANDLE, fiorrudda_verdict(&client, &none, &headers, 204, &error, &age));
    IS(WRONG_HANDLE, fiorrudda_verdict(&client, &request, &none, 204, &error, &age));
    IS(WRONG_HANDLE, fiorrudda_refused_name(&client, &request, &none, 204, room, sizeof room, &len));
    IS(WRONG_HANDLE, fiorrudda_preflight(&none, &request, room, sizeof room, &len));
    IS(WRONG_HANDLE, fiorrudda_preflight(&client, &headers, room, sizeof room, &len));
    IS(OK, fiorrudda_request(&request, T("GET"), T("https://b.example/")));
    IS(NO, fiorrudda_preflight(&client, &request, room, sizeof room, &len));
    IS(OK, fiorrudda_request(&request, T("PUT"), T("data:,x")));
    IS(NOT_HTTP, fiorrudda_preflight(&client, &request, room, sizeof room, &len));
    IS(OK, fiorrudda_request(&request, T("a b"), T("https://b.example/")));
    IS(NO_REQUEST, fiorrudda_preflight(&client, &request, room, sizeof room, &len));
    IS(NO_REQUEST, fiorrudda_verdict(&client, &request, &headers, 204, &error, &age));
    IS(NO_REQUEST, fiorrudda_refused_name(&client, &request, &headers, 204, room, sizeof room, &len));
}

static void seen(void) {
    uint32_t status = 77;
    page("https://a.example/");
    IS(OK, fiorrudda_request(&request, T("GET"), T("https://b.example/")));
    list("Set-Cookie", "a=b");
    IS(OK, fiorrudda_append(&headers, T("Content-Type"), T("text/csv")));
    IS(OK, fiorrudda_append(&headers, T("X-A"), T("1")));
    IS(OK, fiorrudda_append(&headers, T("X-B"), T("2")));
    IS(OK, fiorrudda_append(&headers, T("Access-Control-Expose-Headers"), T("x-b")));
    IS(OK, fiorrudda_filtered(&made, &client, &request, &headers, 201, FIORRUDDA_TAINTING_CORS, &status));
    HOLDS(status == 201);
    IS(OK, fiorrudda_name_at(&made, 0, room, sizeof room, &len));
    HOLDS(wrote("Content-Type"));
    IS(OK, fiorrudda_name_at(&made, 1, room, sizeof room, &len));
    HOLDS(wrote("X-B"));
    IS(NO, fiorrudda_name_at(&made, 2, room, sizeof room, &len));
    IS(OK, fiorrudda_filtered(&made, &client, &request, &headers, 201, FIORRUDDA_TAINTING_BASIC, &status));
    IS(NO, fiorrudda_get(&made, T("Set-Cookie"), room, sizeof room, &len));
    IS(OK, fiorrudda_get(&made, T("X-A"), room, sizeof room, &len));
    HOLDS(wrote("1"));
    IS(OK, fiorrudda_filtered(&made, &client, &request, &headers, 201, FIORRUDDA_TAINTING_OPAQUE, &status));
    HOLDS(status == 0);
    IS(NO, fiorrudda_name_at(&made, 0, room, sizeof room, &len));
    IS(OK, fiorrudda_request_choose(&request, FIORRUDDA_CHOOSE_REDIRECT, FIORRUDDA_REDIRECT_MANUAL));
    status = 77;
    IS(OK, fiorrudda_filtered(&made, &client, &request, &headers, 302, FIORRUDDA_TAINTING_BASIC, &status));
    HOLDS(status == 0);
    IS(NO, fiorrudda_name_at(&made, 0, room, sizeof room, &len));
    IS(OK, fiorrudda_filtered(&made, &client, &request, &headers, 201, FIORRUDDA_TAINTING_BASIC, &status));
    HOLDS(status == 201);
    status = 77;
    void *was = made.at;
    IS(NO_SUCH_NUMBER, fiorrudda_filtered(&made, &client, &request, &headers, 201, 3, &status));
    IS(WRONG_HANDLE, fiorrudda_filtered(&made, &none, &request, &headers, 201, 0, &status));
    IS(WRONG_HANDLE, fiorrudda_filtered(&made, &client, &none, &headers, 201, 0, &status));
    IS(WRONG_HANDLE, fiorrudda_filtered(&made, &client, &request, &none, 201, 0, &status));
    HOLDS(status == 77 && was != NULL && made.at == was);
    load(FIORRUDDA_LOAD_SCRIPT, "https://b.example/");
    IS(OK, fiorrudda_type_blocked(&request, &headers));
    IS(NO, fiorrudda_nosniff_blocked(&request, &headers));
    IS(OK, fiorrudda_append(&headers, T("X-Content-Type-Options"), T("nosniff")));
    IS(OK, fiorrudda_nosniff_blocked(&request, &headers));
    load(FIORRUDDA_LOAD_IMAGE, "https://b.example/");
    IS(NO, fiorrudda_type_blocked(&request, &headers));
    IS(NO, fiorrudda_nosniff_blocked(&request, &headers));
    IS(WRONG_HANDLE, fiorrudda_type_blocked(&none, &headers));
    IS(WRONG_HANDLE, fiorrudda_type_blocked(&request, &none));
    IS(WRONG_HANDLE, fiorrudda_nosniff_blocked(&client, &headers));
    IS(WRONG_HANDLE, fiorrudda_nosniff_blocked(&request, &client));
}

int main(void) {
    memset(room, 0xEE, sizeof room);
    lists();
    names();
    mixed();
    policies();
    preflights();
    seen();
    fiorrudda_free(&client);
    fiorrudda_free(&request);
    fiorrudda_free(&headers);
    fiorrudda_free(&made);
    puts("policies: ok");
    return 0;
}
