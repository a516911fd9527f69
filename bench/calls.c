// What each call of the C library costs: a line for each, with its name, the nanoseconds of the fastest of many calls,
// and the bytes that it asks the heap for. bench/embed.py --calls builds and runs it, and writes what it prints to
// embed/costs.
#include <stdio.h>
#include <stdlib.h>
#include <string.h>
#include <time.h>
#include "fiorrudda.h"

enum { ROUNDS = 2000 };
#define T(text) (const uint8_t *)(text), sizeof(text) - 1
#define PAGE T("https://app.example/cart?id=7")
#define URL T("https://api.example/items/7")

static fiorrudda_handle list, client, asked, load, policies, found, book, fetch, made;
static uint8_t room[65536];
static size_t len, asked_for;
static uint64_t number, age;
static uint32_t fault, header, word;

// ---- the heap, by the linker's --wrap

void *__real_malloc(size_t size);
void *__real_realloc(void *at, size_t size);

void *__wrap_malloc(size_t size) {
    asked_for += size;
    return __real_malloc(size);
}

void *__wrap_realloc(void *at, size_t size) {
    asked_for += size;
    return __real_realloc(at, size);
}

// ---- the clock

static uint64_t now(void) {
    struct timespec it;
    clock_gettime(CLOCK_MONOTONIC, &it);
    return (uint64_t)it.tv_sec * 1000000000u + (uint64_t)it.tv_nsec;
}

// What reading the clock twice takes, which is no cost of a call.
static uint64_t clock_cost(void) {
    uint64_t least = UINT64_MAX;
    for (int round = 0; round < ROUNDS; round++) {
        uint64_t start = now(), took = now() - start;
        if (took < least) least = took;
    }
    return least;
}

static void wants(const char *name, uint32_t code, uint32_t wanted) {
    if (code == wanted) return;
    fprintf(stderr, "calls: fiorrudda_%s answers %u\n", name, (unsigned)code);
    exit(1);
}

static uint64_t of_clock;

static void tell(const char *name, uint64_t least) {
    printf("%s %u %u\n", name, (unsigned)(least > of_clock ? least - of_clock : 0), (unsigned)asked_for);
}

// The fastest of many calls, each after what makes it ready, which is not counted.
#define COST(name, wanted, ready, ...)                                              \
    do {                                                                            \
        uint64_t least = UINT64_MAX;                                                \
        for (int round = 0; round < ROUNDS; round++) {                              \
            ready;                                                                  \
            asked_for = 0;                                                          \
            uint64_t start = now();                                                 \
            uint32_t code = fiorrudda_##name(__VA_ARGS__);                          \
            uint64_t took = now() - start;                                          \
            if (took < least) least = took;                                         \
            wants(#name, code, wanted);                                             \
        }                                                                           \
        tell(#name, least);                                                         \
    } while (0)
#define WRITTEN room, sizeof room, &len

static void lists(void) {
    COST(headers, 0, , &list);
    COST(append, 0, fiorrudda_headers(&list), &list, T("Access-Control-Allow-Origin"), T("https://app.example"));
    fiorrudda_append(&list, T("Access-Control-Expose-Headers"), T("X-Total, X-Page"));
    fiorrudda_append(&list, T("Content-Type"), T("text/html; charset=utf-8"));
    fiorrudda_append(&list, T("X-Total"), T("40"));
    COST(get, 0, , &list, T("content-type"), WRITTEN);
    COST(name_at, 0, , &list, 2, WRITTEN);
    COST(value_at, 0, , &list, 2, WRITTEN);
}

static void urls(void) {
    COST(origin, 0, , PAGE, WRITTEN);
    COST(same_origin, 1, , PAGE, URL);
    COST(same_site, 1, , PAGE, T("https://cdn.other/"));
    COST(trustworthy, 0, , PAGE);
    COST(bad_port, 1, , PAGE);
    COST(referrer, 0, , FIORRUDDA_REFERRER_DEFAULT, PAGE, URL, WRITTEN);
    COST(source_matches, 0, , T("https://*.example"), URL, PAGE, 0);
}

static void heads(void) {
    COST(cors_check, 0, , T("https://app.example"), false, &list);
    COST(exposed_name, 0, , &list, false, 0, WRITTEN);
    COST(safelisted, 1, , T("Content-Type"), T("application/json"));
    COST(unsafe_name, 0, , &list, 0, WRITTEN);
    COST(forbidden_header, 1, , T("X-Total"), T("40"));
    COST(forbidden_method, 1, , T("PUT"));
    COST(essence, 0, , &list, WRITTEN);
    COST(nosniff, 1, , &list);
    COST(integrity, 0, , T("sha256-47DEQpj8HBSa+/TImW+5JCeuQeRkm5NMpJWZG3hSuFU="), T(""));
    COST(resource_policy, 1, , PAGE, URL, &list);
}

static void requests(void) {
    COST(client, 0, , &client, PAGE, PAGE, FIORRUDDA_REFERRER_DEFAULT);
    COST(client_policy, 0, fiorrudda_client(&client, PAGE, PAGE, 0), &client, T("connect-src https:"), true);
    COST(client_cookie, 0, fiorrudda_client(&client, PAGE, PAGE, 0), &client, URL, T("session=1"));
    fiorrudda_client(&client, PAGE, PAGE, FIORRUDDA_REFERRER_DEFAULT);
    COST(request, 0, , &asked, T("PUT"), URL);
    COST(load, 0, , &load, FIORRUDDA_LOAD_SCRIPT, URL);
    COST(request_header, 0, fiorrudda_request(&asked, T("PUT"), URL), &asked, T("Content-Type"), T("application/json"));
    COST(request_text, 0, , &asked, FIORRUDDA_REQUEST_BODY, T("{}"));
    COST(request_choose, 0, , &asked, FIORRUDDA_CHOOSE_CREDENTIALS, FIORRUDDA_CREDENTIALS_OMIT);
    COST(type_blocked, 1, , &load, &list);
    COST(nosniff_blocked, 1, , &load, &list);
    COST(mixed_upgraded, 1, , &client, &load, T(""));
    COST(mixed_blocked, 1, , &client, &load, T(""));
}

static void checks(void) {
    fiorrudda_headers(&made);
    fiorrudda_append(&made, T("Content-Security-Policy"),
        T("default-src 'self'; script-src 'self' https://cdn.example"));
    COST(policies, 0, , &policies, &made);
    COST(upgrades, 1, , &policies);
    COST(check, 1, , &found, &policies, &client, &load, T(""), FIORRUDDA_CHECK_ENFORCED);
    COST(violation, 0, , &found, 0, &word, &fault);
    COST(violation_directive, 0, , &found, 0, WRITTEN);
    COST(violation_url, 0, , &found, 0, WRITTEN);
    COST(preflight, 0, , &client, &asked, WRITTEN);
    COST(verdict, 1, , &client, &asked, &list, 204, &fault, &age);
    COST(refused_name, 1, , &client, &asked, &list, 204, WRITTEN);
    COST(filtered, 0, , &made, &client, &asked, &list, 200, FIORRUDDA_TAINTING_CORS, &word);
}

static void books(void) {
    COST(sts, 0, , T("max-age=600; includeSubDomains"), &age, &word);
    COST(book, 0, , &book);
    COST(note_host, 0, , &book, T("api.example"), T("max-age=600"), 0);
    COST(known_host, 0, , &book, T("api.example"), 1);
    COST(book_text, 0, , &book, WRITTEN);
    COST(book_of_text, 0, , &made, room, len, &number, &fault);
}

// A GET of the page's own origin, to where the act is that is to be measured.
static void stand(uint32_t act) {
    static const char head[] = "HTTP/1.1 200 OK\r\nContent-Length: 5\r\n\r\n";
    size_t used;
    fiorrudda_request(&asked, T("GET"), T("/items"));
    fiorrudda_fetch(&fetch, &client, &asked, 0, 1 << 20, &fault, &header);
    if (act == FIORRUDDA_ACT_SEND) return;
    fiorrudda_input(&fetch, FIORRUDDA_INPUT_SENT);
    if (act == FIORRUDDA_ACT_READ_HEAD) return;
    fiorrudda_feed(&fetch, T(head), &used);
    fiorrudda_feed(&fetch, T("hello"), &used);
}

static void fetches(void) {
    COST(fetch, 0, fiorrudda_request(&asked, T("GET"), T("/items")), &fetch, &client, &asked, 0, 1 << 20, &fault,
        &header);
    COST(act, 0, , &fetch, &word);
    COST(to_send, 0, , &fetch, WRITTEN);
    COST(input, 0, stand(FIORRUDDA_ACT_SEND), &fetch, FIORRUDDA_INPUT_SENT);
    COST(feed, 0, stand(FIORRUDDA_ACT_READ_HEAD), &fetch, T("HTTP/1.1 200 OK\r\nContent-Length: 5\r\n\r\n"), &len);
    stand(FIORRUDDA_ACT_OVER);
    COST(text, 0, , &fetch, FIORRUDDA_TEXT_BODY, 0, WRITTEN);
    COST(number, 0, , &fetch, FIORRUDDA_NUMBER_STATUS, &number);
    fiorrudda_handle other = {0};
    fiorrudda_client(&other, T("http://app.example/"), T("http://app.example/"), FIORRUDDA_REFERRER_DEFAULT);
    COST(ask, 0, fiorrudda_fetch(&fetch, &other, &asked, 0, 0, &fault, &header), &fetch, &book, &word);
    COST(judge, 0, fiorrudda_fetch(&fetch, &other, &asked, 0, 0, &fault, &header), &fetch, &book, &found, &word);
    fiorrudda_free(&other);
}

static void plays(void) {
    COST(play, 0, , T("{\"format\":1,"
        "\"servers\":[{\"origin\":\"https://a.test\",\"rules\":[{\"status\":200,\"body\":\"hi\"}]}],"
        "\"documents\":[{\"url\":\"https://a.test/\",\"script\":[{\"fetch\":{\"url\":\"/\"}}]}]}"), WRITTEN);
}

int main(void) {
    fiorrudda_handle *all[] = {&list, &client, &asked, &load, &policies, &found, &book, &fetch, &made};
    of_clock = clock_cost();
    lists();
    urls();
    heads();
    requests();
    checks();
    books();
    fetches();
    plays();
    for (size_t at = 0; at < sizeof all / sizeof *all; at++) fiorrudda_free(all[at]);
}
