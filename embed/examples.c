// The examples of include/fiorrudda.h, which embed/header copies from here: what stands between `// example NAME` and `// end`.
// embed/check compares what they print.
#include "holds.h"

static fiorrudda_handle headers, policies, client, request, fetch, book, found;
static uint8_t room[512];
static size_t len, used;
static uint32_t code, fault, header, status, error, act, subdomains, policy, enforced;
static uint64_t age, now = 1800000000;

// The caller's own of a whole fetch: what connects and sends, and what receives.
static bool sent(fiorrudda_handle *it) { return fiorrudda_to_send(it, room, sizeof room, &len) == FIORRUDDA_OK; }

static uint32_t received(fiorrudda_handle *it) {
    static const char answer[] = "HTTP/1.1 200 OK\r\nAccess-Control-Allow-Origin: *\r\nContent-Length: 2\r\n\r\nhi";
    static size_t from;
    uint32_t came = fiorrudda_feed(it, (const uint8_t *)answer + from, sizeof answer - 1 - from, &used);
    from += used;
    return came;
}

static void cors(void) {
    // example cors
    fiorrudda_headers(&headers);
    fiorrudda_append(&headers, T("Access-Control-Allow-Origin"), T("https://app.example"));
    switch (fiorrudda_cors_check(T("https://app.example"), false, &headers)) {
    case FIORRUDDA_OK: puts("the page may read it"); break;
    case FIORRUDDA_NO: puts("the page may not read it"); break;
    default: puts("the call was wrong");
    }
    if (fiorrudda_safelisted(T("Content-Type"), T("application/json")) != FIORRUDDA_OK) puts("a preflight asks for it");
    // end
}

static void lists(void) {
    // example lists
    fiorrudda_headers(&headers);
    fiorrudda_append(&headers, T("Vary"), T("Origin"));
    fiorrudda_append(&headers, T("vary"), T("Accept"));
    if (fiorrudda_get(&headers, T("VARY"), room, sizeof room, &len) == FIORRUDDA_OK)
        printf("%.*s\n", (int)len, (char *)room); // Origin, Accept
    for (size_t at = 0; fiorrudda_name_at(&headers, at, room, sizeof room, &len) == FIORRUDDA_OK; at++)
        printf("%.*s\n", (int)len, (char *)room); // Vary, twice
    fiorrudda_free(&headers);
    // end
}

static void origins(void) {
    // example origins
    if (fiorrudda_origin(T("HTTPS://App.Example:443/cart"), room, sizeof room, &len) == FIORRUDDA_OK)
        printf("%.*s\n", (int)len, (char *)room); // https://app.example
    if (fiorrudda_same_origin(T("https://app.example/"), T("https://api.example/")) == FIORRUDDA_NO)
        puts("another origin");
    if (fiorrudda_bad_port(T("https://app.example:25/")) != FIORRUDDA_NO) puts("nothing is sent there");
    if (fiorrudda_referrer(FIORRUDDA_REFERRER_DEFAULT, T("https://app.example/cart?a"), T("https://api.example/"),
                           room, sizeof room, &len) == FIORRUDDA_OK)
        printf("Referer: %.*s\n", (int)len, (char *)room); // https://app.example/
    // end
}

static void answers(void) {
    // example answers
    fiorrudda_headers(&headers);
    fiorrudda_append(&headers, T("Content-Type"), T("text/html; charset=utf-8"));
    fiorrudda_append(&headers, T("X-Content-Type-Options"), T("nosniff"));
    fiorrudda_load(&request, FIORRUDDA_LOAD_SCRIPT, T("https://cdn.example/app.js"));
    if (fiorrudda_nosniff_blocked(&request, &headers) != FIORRUDDA_NO) puts("it is no JavaScript, and blocked");
    if (fiorrudda_integrity(T("sha256-47DEQpj8HBSa+/TImW+5JCeuQeRkm5NMpJWZG3hSuFU="), T("")) == FIORRUDDA_OK)
        puts("the empty body is the one that was meant");
    // end
}

static void checks(void) {
    // example policies
    fiorrudda_headers(&headers);
    fiorrudda_append(&headers, T("Content-Security-Policy"), T("img-src 'self'"));
    fiorrudda_policies(&policies, &headers);
    fiorrudda_client(&client, T("https://app.example/"), T("https://app.example/"), FIORRUDDA_REFERRER_DEFAULT);
    fiorrudda_load(&request, FIORRUDDA_LOAD_IMAGE, T("https://ads.example/pixel"));
    code = fiorrudda_check(&found, &policies, &client, &request, T(""), FIORRUDDA_CHECK_ENFORCED);
    for (size_t at = 0; fiorrudda_violation(&found, at, &policy, &enforced) == FIORRUDDA_OK; at++)
        if (fiorrudda_violation_directive(&found, at, room, sizeof room, &len) == FIORRUDDA_OK)
            printf("policy %u forbids it by %.*s\n", (unsigned)policy, (int)len, (char *)room); // 0, img-src
    if (code == FIORRUDDA_OK) puts("it may be sent");
    // end
}

static void preflights(void) {
    // example preflights
    fiorrudda_client(&client, T("https://app.example/"), T("https://app.example/"), FIORRUDDA_REFERRER_DEFAULT);
    fiorrudda_request(&request, T("PUT"), T("https://api.example/cart"));
    if (fiorrudda_preflight(&client, &request, room, sizeof room, &len) == FIORRUDDA_OK)
        printf("%.*s", (int)len, (char *)room); // OPTIONS /cart HTTP/1.1, and so on
    fiorrudda_headers(&headers); // of the server's answer
    fiorrudda_append(&headers, T("Access-Control-Allow-Origin"), T("*"));
    if (fiorrudda_verdict(&client, &request, &headers, 204, &error, &age) == FIORRUDDA_NO)
        puts(error == FIORRUDDA_ERROR_PREFLIGHT_METHOD ? "it allows no PUT" : "it is refused");
    // end
}

static void pages(void) {
    // example seen
    fiorrudda_client(&client, T("https://app.example/"), T("https://app.example/"), FIORRUDDA_REFERRER_DEFAULT);
    fiorrudda_request(&request, T("GET"), T("https://api.example/"));
    fiorrudda_headers(&headers);
    fiorrudda_append(&headers, T("X-Total"), T("40"));
    fiorrudda_append(&headers, T("Access-Control-Expose-Headers"), T("X-Total"));
    fiorrudda_filtered(&found, &client, &request, &headers, 200, FIORRUDDA_TAINTING_CORS, &status);
    if (fiorrudda_get(&found, T("X-Total"), room, sizeof room, &len) == FIORRUDDA_OK)
        printf("%u, X-Total: %.*s\n", (unsigned)status, (int)len, (char *)room); // 200, X-Total: 40
    // end
}

static void requests(void) {
    // example requests
    fiorrudda_client(&client, T("https://app.example/"), T("https://app.example/"), FIORRUDDA_REFERRER_DEFAULT);
    fiorrudda_client_policy(&client, T("connect-src https://api.example"), true);
    fiorrudda_client_cookie(&client, T("https://api.example/"), T("session=1"));
    fiorrudda_request(&request, T("PUT"), T("https://api.example/cart"));
    fiorrudda_request_choose(&request, FIORRUDDA_CHOOSE_CREDENTIALS, FIORRUDDA_CREDENTIALS_INCLUDE);
    fiorrudda_request_header(&request, T("Content-Type"), T("application/json"));
    fiorrudda_request_text(&request, FIORRUDDA_REQUEST_BODY, T("{}"));
    if (fiorrudda_mixed_blocked(&client, &request, T("")) == FIORRUDDA_NO) puts("it is no mixed content");
    // end
}

static void books(void) {
    // example books
    fiorrudda_book(&book);
    if (fiorrudda_sts(T("max-age=600; includeSubDomains"), &age, &subdomains) == FIORRUDDA_OK)
        fiorrudda_note_host(&book, T("api.example"), T("max-age=600; includeSubDomains"), now);
    if (fiorrudda_known_host(&book, T("eu.api.example"), now + 599) == FIORRUDDA_OK) puts("https is asked");
    if (fiorrudda_book_text(&book, room, sizeof room, &len) == FIORRUDDA_OK) fwrite(room, 1, len, stdout);
    uint64_t line; // of a file, next time: the format of this library is `fiorrudda book 1`
    if (fiorrudda_book_of_text(&book, T("fiorrudda book 2\n"), &line, &error) == FIORRUDDA_NO)
        printf("line %u, reason %u\n", (unsigned)line, (unsigned)error); // line 1, FIORRUDDA_REASON_OTHER_FORMAT
    // end
}

static void whole(void) {
    fiorrudda_book(&book);
    fiorrudda_client(&client, T("https://app.example/"), T("https://app.example/"), FIORRUDDA_REFERRER_DEFAULT);
    fiorrudda_request(&request, T("GET"), T("https://api.example/"));
    // example fetch
    code = fiorrudda_fetch(&fetch, &client, &request, now, 1048576, &fault, &header);
    while (!code && !(code = fiorrudda_judge(&fetch, &book, &found, &act)) && act != FIORRUDDA_ACT_OVER)
        switch (act) { // `found` has the violations since the last
        case FIORRUDDA_ACT_SEND: // over a connection to the server of FIORRUDDA_TEXT_ORIGIN
            code = fiorrudda_input(&fetch, sent(&fetch) ? FIORRUDDA_INPUT_SENT : FIORRUDDA_INPUT_FAILED); break;
        case FIORRUDDA_ACT_READ_HEAD: case FIORRUDDA_ACT_READ_BODY: code = received(&fetch);
        }
    if (!code && !fiorrudda_text(&fetch, FIORRUDDA_TEXT_BODY, 0, room, sizeof room, &len)) fwrite(room, 1, len, stdout);
    // end
}

static void played(void) {
    // example play
    code = fiorrudda_play(T("{\"format\": 1, \"documents\": [{\"url\": \"https://app.example/\","
        " \"headers\": [[\"Content-Security-Policy\", \"img-src 'self'\"]],"
        " \"script\": [{\"load\": {\"kind\": \"image\", \"url\": \"https://cdn.example/a.png\"}}]}]}"),
        room, sizeof room, &len);
    if (code == FIORRUDDA_OK) fwrite(room, 1, len, stdout); // what fetchplay prints: a policy forbids it
    code = fiorrudda_play(T("{\"format\": 1, \"documents\": [{\"url\": \"/\"}]}"), room, sizeof room, &len);
    if (code == FIORRUDDA_NO) printf("refused at %.*s\n", (int)len, (char *)room); // /documents/0/url
    // end
}

int main(void) {
    cors();
    lists();
    origins();
    answers();
    checks();
    preflights();
    pages();
    requests();
    books();
    whole();
    putchar('\n');
    played();
    puts("examples: ok");
    fiorrudda_handle *all[] = {&headers, &policies, &client, &request, &fetch, &book, &found};
    for (size_t at = 0; at < sizeof all / sizeof *all; at++) fiorrudda_free(all[at]);
    return 0;
}
