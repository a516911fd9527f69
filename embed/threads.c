// Four threads, each with header lists and fetches of its own, which share a book under a lock. Each call of the book is
// written down before its lock is let go, so that the list has the order in which the calls were made:
//
//     threads FILE
//
// writes it as a history (docs/rules/printed-text.md), in which the thread's number stands for a document's.
#define _POSIX_C_SOURCE 200809L
#include <pthread.h>
#include <sched.h>
#include "calls.h"
#include "holds.h"

enum { THREADS = 4, ROUNDS = 500, PLAYS = 3 };

#define ALLOWED "Access-Control-Allow-Origin: *\r\n"
#define LESSON ALLOWED "Access-Control-Allow-Methods: PUT\r\nAccess-Control-Allow-Headers: X-A\r\nAccess-Control-Max-Age: 4\r\n"

static fiorrudda_handle book;
static pthread_mutex_t lock = PTHREAD_MUTEX_INITIALIZER;
static FILE *history;
static unsigned turn;

typedef struct worker {
    unsigned number;
    fiorrudda_handle client, request, fetch, found;
} worker;

// Lets go of the lock, and lets another thread have it.
static void unlocked(void) {
    pthread_mutex_unlock(&lock);
    sched_yield();
}

// Asks the shared book what the fetch's act asks for, and writes that down with the reply.
static uint32_t asked(worker *it) {
    uint32_t reply = 0;
    pthread_mutex_lock(&lock);
    fprintf(history, "%u %u ", turn++, it->number);
    put_call(history, &it->fetch);
    uint32_t code = fiorrudda_ask(&it->fetch, &book, &reply);
    fprintf(history, "%s\n", reply_word(reply));
    unlocked();
    return code;
}

static bool noted(worker *it, const char *host, uint64_t now) {
    pthread_mutex_lock(&lock);
    uint32_t code = fiorrudda_note_host(&book, (const uint8_t *)host, strlen(host), T("max-age=1"), now);
    fprintf(history, "%u %u note %s 1 exact at %u: done\n", turn++, it->number, host, (unsigned)now);
    unlocked();
    return code == FIORRUDDA_OK;
}

static bool looked_up(worker *it, const char *host, uint64_t now) {
    pthread_mutex_lock(&lock);
    uint32_t code = fiorrudda_known_host(&book, (const uint8_t *)host, strlen(host), now);
    fprintf(history, "%u %u match %s at %u: %s\n", turn++, it->number, host, (unsigned)now, code ? "no" : "yes");
    unlocked();
    return code == FIORRUDDA_OK || code == FIORRUDDA_NO;
}

// What the server answers: to a preflight what it allows, to a page's own GET nothing, and to a PUT, of which every third is
// refused, so that the preflight cache forgets what it learnt.
static const char *answer(fiorrudda_handle *fetch, uint64_t now) {
    uint64_t preflight = 0;
    uint8_t method[8];
    size_t len;
    if (!fiorrudda_number(fetch, FIORRUDDA_NUMBER_PREFLIGHT, &preflight) && preflight) return "HTTP/1.1 204 X\r\n" LESSON "\r\n";
    if (fiorrudda_text(fetch, FIORRUDDA_TEXT_METHOD, 0, method, sizeof method, &len) || method[0] == 'G') return "HTTP/1.1 204 X\r\n\r\n";
    if (now % 3 == 0) return "HTTP/1.1 403 X\r\n\r\n";
    return "HTTP/1.1 204 X\r\n" ALLOWED "Strict-Transport-Security: max-age=2; includeSubDomains\r\n\r\n";
}

// Judges the request of a fetch, which asks the shared book and changes nothing of it, so it stands in no history.
static bool judged(worker *it) {
    uint32_t act = FIORRUDDA_ACT_GONE;
    pthread_mutex_lock(&lock);
    uint32_t code = fiorrudda_judge(&it->fetch, &book, &it->found, &act);
    unlocked();
    return !code && act == FIORRUDDA_ACT_SEND;
}

// Does the acts of a fetch until it is over.
static bool acted(worker *it, uint64_t now) {
    uint32_t act = FIORRUDDA_ACT_GONE, code = 0;
    const char *left = "";
    for (int n = 0; n < 40 && !code && !fiorrudda_act(&it->fetch, &act) && act != FIORRUDDA_ACT_OVER; n++) {
        size_t used = 0;
        if (act == FIORRUDDA_ACT_ASK) {
            code = asked(it);
        } else if (act == FIORRUDDA_ACT_SEND) {
            left = answer(&it->fetch, now);
            code = fiorrudda_input(&it->fetch, FIORRUDDA_INPUT_SENT);
        } else {
            code = fiorrudda_feed(&it->fetch, (const uint8_t *)left, strlen(left), &used);
            left += used;
        }
    }
    return !code && act == FIORRUDDA_ACT_OVER;
}

// A fetch by handles of its own: a GET of the page's own server over http, or a PUT to a server that all threads ask.
static bool fetched(worker *it, uint64_t now) {
    uint32_t fault, header;
    bool put = now % PLAYS != 0;
    const char *page = put ? "https://app.example/" : "http://0.example/", *url = put ? "https://api.example/d" : "/";
    const uint8_t *at = (const uint8_t *)page;
    if (fiorrudda_client(&it->client, at, strlen(page), at, strlen(page), FIORRUDDA_REFERRER_DEFAULT)) return false;
    if (fiorrudda_request(&it->request, (const uint8_t *)(put ? "PUT" : "GET"), 3, (const uint8_t *)url, strlen(url))) return false;
    if (put && fiorrudda_request_header(&it->request, T("X-A"), T("1"))) return false;
    if (fiorrudda_fetch(&it->fetch, &it->client, &it->request, now, 100, &fault, &header) || !judged(it)) return false;
    if (fiorrudda_fetch(&it->fetch, &it->client, &it->request, now, 100, &fault, &header)) return false;
    return acted(it, now / PLAYS);
}

static const char *round_of(worker *it, uint64_t now) {
    char host[] = "0.example";
    host[0] += (char)it->number;
    fiorrudda_handle headers = {0};
    if (fiorrudda_headers(&headers) || fiorrudda_append(&headers, T("Access-Control-Allow-Origin"), T("*"))) return "a list";
    if (fiorrudda_cors_check(T("https://a.example"), false, &headers)) return "a check";
    fiorrudda_free(&headers);
    if (!noted(it, host, now)) return "a note";
    if (!looked_up(it, "b.api.example", now)) return "a host";
    return now % 5 || fetched(it, now / 5) ? NULL : "a fetch";
}

static void *work(void *at) {
    worker *it = at;
    const char *failed = NULL;
    for (uint64_t now = 0; now < ROUNDS && !failed; now++) failed = round_of(it, now);
    fiorrudda_free(&it->client);
    fiorrudda_free(&it->request);
    fiorrudda_free(&it->fetch);
    fiorrudda_free(&it->found);
    return (void *)failed;
}

int main(int count, char **words) {
    pthread_t threads[THREADS];
    static worker workers[THREADS];
    history = fopen(count > 1 ? words[1] : "/dev/null", "w");
    if (!history || fiorrudda_book(&book)) return 1;
    fputs("history\n", history);
    for (unsigned n = 0; n < THREADS; n++) {
        workers[n].number = n;
        if (pthread_create(&threads[n], NULL, work, &workers[n])) return 1;
    }
    for (unsigned n = 0; n < THREADS; n++) {
        void *failed;
        pthread_join(threads[n], &failed);
        if (failed) return fprintf(stderr, "threads: %s failed\n", (char *)failed), 1;
    }
    for (char host[] = "0.example"; host[0] < '0' + THREADS; host[0]++)
        if (fiorrudda_known_host(&book, (const uint8_t *)host, 9, ROUNDS - 1)) return fprintf(stderr, "threads: %s is not known\n", host), 1;
    fiorrudda_free(&book);
    fputs("done\n", history);
    if (fclose(history)) return 1;
    printf("threads: ok, %u calls of one book\n", turn);
    return 0;
}
