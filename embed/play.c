// Plays a scenario of one document by the library's whole fetch. It reads what `embed/flat` writes, and prints what
// `fetchplay play` prints. With a number as its argument the answers come in pieces of so many bytes. The last result is told
// on standard error where it is asked for.
#include "calls.h"
#include "fiorrudda.h"
#include "names.h"
#include <inttypes.h>
#include <stdio.h>
#include <stdlib.h>
#include <string.h>

typedef struct text {
    uint8_t *at;
    size_t len;
} text;

typedef struct rule {
    text *method, *path; // null: any
    text answer;
} rule;

typedef struct server {
    text origin;
    rule *rules;
    size_t count;
} server;

typedef struct play {
    server *servers;
    size_t server_count;
    size_t piece;
    uint64_t now;
    uint32_t limit, fetches;
    bool loads, last_loads, ran, began; // this is a load; so was the last; there was one; a request was made of it
    const char *ending;
    fiorrudda_handle book, client, request, fetch;
    char *history; // the calls of the book
    char *sent;    // the bytes of the last request, made of its parts
    size_t history_len, sent_len;
    FILE *calls;
    unsigned turn;
} play;

static void fail(const char *what) {
    fprintf(stderr, "play: %s\n", what);
    exit(1);
}

static void done(uint32_t code, const char *what) {
    if (code != FIORRUDDA_OK) {
        fprintf(stderr, "play: %s: code %u\n", what, code);
        exit(1);
    }
}

static void *grown(void *at, size_t size) {
    void *more = realloc(at, size ? size : 1);
    if (!more)
        fail("no memory");
    return more;
}

// ---- the lines that are read

static text unhexed(const char *word) {
    text it = {grown(NULL, strlen(word) / 2 + 1), 0};
    if (!strcmp(word, "."))
        return it;
    for (; word[0] && word[1]; word += 2) {
        unsigned byte;
        if (sscanf(word, "%2x", &byte) != 1)
            fail("a text that is not hexadecimal");
        it.at[it.len++] = (uint8_t)byte;
    }
    return it;
}

static const char *word(void) {
    const char *it = strtok(NULL, " \n");
    if (!it)
        fail("a line that is too short");
    return it;
}

static text next_text(void) { return unhexed(word()); }

static uint64_t next_number(void) { return strtoull(word(), NULL, 10); }

static text *next_optional(void) {
    const char *it = word();
    if (!strcmp(it, "-"))
        return NULL;
    text *made = grown(NULL, sizeof *made);
    *made = unhexed(it);
    return made;
}

// ---- what is printed

static void put(FILE *out, text it) { fwrite(it.at, 1, it.len, out); }

static void put_escaped(text it) {
    for (size_t i = 0; i < it.len; i++) {
        uint8_t byte = it.at[i];
        if (byte >= 0x20 && byte < 0x7f && byte != '\\')
            putchar(byte);
        else
            printf("\\x%02x", byte);
    }
}

// A text that the act or the outcome has. False where it has none.
static bool part(play *p, uint32_t which, size_t at, text *it) {
    // Most texts fit into this room, so that the library is asked once.
    uint8_t room[2048];
    it->len = 0;
    uint32_t code = fiorrudda_text(&p->fetch, which, at, room, sizeof room, &it->len);
    if (code == FIORRUDDA_NO)
        return false;
    it->at = grown(NULL, it->len);
    if (code == FIORRUDDA_OK)
        memcpy(it->at, room, it->len);
    else
        done(fiorrudda_text(&p->fetch, which, at, it->at, it->len, &it->len), "text");
    return true;
}

static text known_part_at(play *p, uint32_t which, size_t at) {
    text it;
    if (!part(p, which, at, &it))
        fail("a text is missing");
    return it;
}

static text known_part(play *p, uint32_t which) { return known_part_at(p, which, 0); }

static uint64_t number(play *p, uint32_t which) {
    uint64_t it = 0;
    done(fiorrudda_number(&p->fetch, which, &it), "number");
    return it;
}

// Prints the headers, and writes them as they are sent where a stream is given.
static void put_headers(play *p, FILE *sent) {
    text name;
    for (size_t i = 0; part(p, FIORRUDDA_TEXT_HEADER_NAME, i, &name); i++) {
        text value = known_part_at(p, FIORRUDDA_TEXT_HEADER_VALUE, i);
        printf("  ");
        put_escaped(name);
        printf(": ");
        put_escaped(value);
        putchar('\n');
        if (sent) {
            put(sent, name);
            fputs(": ", sent);
            put(sent, value);
            fputs("\r\n", sent);
        }
        free(name.at);
        free(value.at);
    }
}

static void put_hex(FILE *out, bool is, text it) {
    fputs(!is ? " -" : it.len ? " " : " .", out);
    for (size_t i = 0; is && i < it.len; i++)
        fprintf(out, "%02x", it.at[i]);
}

static void put_body(const char *label, text body) {
    printf("%s%zu: ", label, body.len);
    put_escaped(body);
    putchar('\n');
}

static void put_sent(play *p) {
    text body, method = known_part(p, FIORRUDDA_TEXT_METHOD), url = known_part(p, FIORRUDDA_TEXT_URL);
    FILE *sent = open_memstream(&p->sent, &p->sent_len);
    if (!sent)
        fail("no memory");
    printf("send ");
    put(stdout, known_part(p, FIORRUDDA_TEXT_ORIGIN));
    printf("\n  ");
    put_escaped(method);
    putchar(' ');
    put_escaped(url);
    printf(" HTTP/1.1\n");
    put(sent, method);
    putc(' ', sent);
    put(sent, url);
    fputs(" HTTP/1.1\r\n", sent);
    put_headers(p, sent);
    fputs("\r\n", sent);
    if (part(p, FIORRUDDA_TEXT_BODY, 0, &body)) {
        put_body("  body ", body);
        put(sent, body);
    }
    fclose(sent);
}

static void put_violation(play *p) {
    printf("violation %" PRIu64 " %s ", number(p, FIORRUDDA_NUMBER_POLICY), number(p, FIORRUDDA_NUMBER_ENFORCED) ? "enforce" : "report");
    put(stdout, known_part(p, FIORRUDDA_TEXT_WORD));
    putchar(' ');
    put(stdout, known_part(p, FIORRUDDA_TEXT_URL));
    putchar('\n');
}

static void put_response(play *p) {
    printf("result ");
    put(stdout, known_part(p, FIORRUDDA_TEXT_WORD));
    printf(" %" PRIu64 " ", number(p, FIORRUDDA_NUMBER_STATUS));
    text url;
    if (part(p, FIORRUDDA_TEXT_URL, 0, &url))
        put(stdout, url);
    else
        printf("()");
    putchar('\n');
    put_headers(p, NULL);
    switch (number(p, FIORRUDDA_NUMBER_END)) {
    case FIORRUDDA_END_NULL: printf("  body none\n"); break;
    case FIORRUDDA_END_WHOLE: put_body("  body whole ", known_part(p, FIORRUDDA_TEXT_BODY)); break;
    case FIORRUDDA_END_CUT: printf("  body cut %" PRIu64 "\n", number(p, FIORRUDDA_NUMBER_COUNT)); break;
    case FIORRUDDA_END_FAULT: printf("  body fault %" PRIu64 "\n", number(p, FIORRUDDA_NUMBER_COUNT)); break;
    default: printf("  body toobig\n");
    }
}

static void put_outcome(play *p) {
    switch (number(p, FIORRUDDA_NUMBER_OUTCOME)) {
    case FIORRUDDA_OUTCOME_RESPONSE: put_response(p); return;
    case FIORRUDDA_OUTCOME_LOADED: printf("result loaded\n"); return;
    }
    printf("result %s %" PRIu64 " ", p->loads ? "failed" : "error", number(p, FIORRUDDA_NUMBER_ERROR));
    put(stdout, known_part(p, FIORRUDDA_TEXT_WORD));
    text header;
    if (part(p, FIORRUDDA_TEXT_REFUSED, 0, &header)) {
        putchar(' ');
        put(stdout, header);
    }
    putchar('\n');
}

static void put_fault(play *p, uint32_t fault, uint32_t header) {
    static const char *const names[] = {FAULT_NAMES};
    printf("result %s %u %s", p->loads ? "failed type-error" : "type-error", fault, names[fault]);
    if (fault == FIORRUDDA_FAULT_BAD_HEADER)
        printf(" %u", header);
    putchar('\n');
}

// ---- the last result

static void tell_response(play *p) {
    text it, name;
    put(stderr, known_part(p, FIORRUDDA_TEXT_WORD));
    fprintf(stderr, " %" PRIu64, number(p, FIORRUDDA_NUMBER_STATUS));
    bool is = part(p, FIORRUDDA_TEXT_URL, 0, &it);
    put_hex(stderr, is, it);
    is = number(p, FIORRUDDA_NUMBER_END) == FIORRUDDA_END_WHOLE && part(p, FIORRUDDA_TEXT_BODY, 0, &it);
    put_hex(stderr, is, it);
    for (size_t i = 0; part(p, FIORRUDDA_TEXT_HEADER_NAME, i, &name); i++) {
        put_hex(stderr, true, name);
        put_hex(stderr, true, known_part_at(p, FIORRUDDA_TEXT_HEADER_VALUE, i));
    }
    putc('\n', stderr);
}

// Its type, its status, its URL, its body where it came whole, and its headers.
static void tell(play *p) {
    uint64_t outcome = p->began ? number(p, FIORRUDDA_NUMBER_OUTCOME) : FIORRUDDA_OUTCOME_ERROR;
    if (!p->ran)
        fputs("none 0 - -\n", stderr);
    else if (outcome == FIORRUDDA_OUTCOME_RESPONSE)
        tell_response(p);
    else
        fprintf(stderr, "%s 0 - -\n", outcome == FIORRUDDA_OUTCOME_LOADED ? "loaded" : p->last_loads ? "failed" : p->began ? "error" : "type-error");
}

// ---- the acts

static void ask(play *p) {
    char *said;
    size_t len;
    FILE *call = open_memstream(&said, &len);
    if (!call)
        fail("no memory");
    put_call(call, &p->fetch);
    uint32_t reply = 0;
    done(fiorrudda_ask(&p->fetch, &p->book, &reply), "ask");
    fputs(reply_word(reply), call);
    fclose(call);
    printf("call %s\n", said);
    fprintf(p->calls, "%u 0 %s\n", p->turn++, said);
    free(said);
}

static bool is(text a, const text *b) { return !b || (a.len == b->len && !memcmp(a.at, b->at, a.len)); }

// What the scripted servers answer to the request.
static text answer(play *p) {
    text none = {NULL, 0}, unknown = unhexed("485454502f312e31203430342053637269707465640d0a0d0a");
    text origin = known_part(p, FIORRUDDA_TEXT_ORIGIN);
    for (size_t i = 0; i < p->server_count; i++) {
        server *s = &p->servers[i];
        if (!is(origin, &s->origin))
            continue;
        for (size_t k = 0; k < s->count; k++)
            if (is(known_part(p, FIORRUDDA_TEXT_METHOD), s->rules[k].method) && is(known_part(p, FIORRUDDA_TEXT_URL), s->rules[k].path))
                return s->rules[k].answer;
        return unknown;
    }
    return none;
}

// The request's bytes are those of its parts.
static void check_request(play *p) {
    size_t len = 0;
    uint8_t *bytes = grown(NULL, 2048);
    uint32_t code = fiorrudda_to_send(&p->fetch, bytes, 2048, &len);
    if (code == FIORRUDDA_TOO_SHORT) {
        bytes = grown(bytes, len);
        code = fiorrudda_to_send(&p->fetch, bytes, len, &len);
    }
    done(code, "to_send");
    if (len != p->sent_len || memcmp(bytes, p->sent, len))
        fail("the request has other bytes than its parts");
    free(bytes);
    free(p->sent);
}

// Hands in a piece of the answer, or its end where all was read.
static void feed(play *p, text *left) {
    if (!left->len) {
        size_t used = 0;
        done(fiorrudda_feed(&p->fetch, (uint8_t *)"", 0, &used), "feed");
        uint32_t act = 0;
        done(fiorrudda_act(&p->fetch, &act), "act");
        if (act == FIORRUDDA_ACT_READ_HEAD || act == FIORRUDDA_ACT_READ_BODY)
            fiorrudda_input(&p->fetch, FIORRUDDA_INPUT_ENDED);
        return;
    }
    size_t used = 0, len = left->len < p->piece ? left->len : p->piece;
    done(fiorrudda_feed(&p->fetch, left->at, len, &used), "feed");
    left->at += used;
    left->len -= used;
}

static void run_acts(play *p) {
    text left = {NULL, 0};
    for (;;) {
        uint32_t act = FIORRUDDA_ACT_GONE;
        done(fiorrudda_act(&p->fetch, &act), "act");
        switch (act) {
        case FIORRUDDA_ACT_ASK: ask(p); break;
        case FIORRUDDA_ACT_SEND:
            put_sent(p);
            check_request(p);
            left = answer(p);
            done(fiorrudda_input(&p->fetch, FIORRUDDA_INPUT_SENT), "sent");
            break;
        case FIORRUDDA_ACT_READ_HEAD:
        case FIORRUDDA_ACT_READ_BODY: feed(p, &left); break;
        case FIORRUDDA_ACT_TELL:
            put_violation(p);
            done(fiorrudda_input(&p->fetch, FIORRUDDA_INPUT_TOLD), "told");
            break;
        case FIORRUDDA_ACT_OVER: put_outcome(p); return;
        default: fail("the fetch is gone");
        }
    }
}

static void run(play *p) {
    uint32_t fault = 0, header = 0;
    uint32_t code = fiorrudda_fetch(&p->fetch, &p->client, &p->request, p->now, p->limit, &fault, &header);
    p->ran = true;
    p->last_loads = p->loads;
    p->began = code != FIORRUDDA_NO_REQUEST;
    if (!p->began) {
        put_fault(p, fault, header);
        return;
    }
    done(code, "fetch");
    run_acts(p);
}

// ---- the lines of the scenario

static void add_rule(play *p) {
    server *s = &p->servers[p->server_count - 1];
    s->rules = grown(s->rules, (s->count + 1) * sizeof *s->rules);
    rule *it = &s->rules[s->count++];
    it->method = next_optional();
    it->path = next_optional();
    it->answer = next_text();
}

static void add_server(play *p) {
    p->servers = grown(p->servers, (p->server_count + 1) * sizeof *p->servers);
    p->servers[p->server_count++] = (server){next_text(), NULL, 0};
}

static void add_host(play *p) {
    char field[64];
    text host = next_text();
    uint64_t subdomains = next_number(), until = next_number();
    snprintf(field, sizeof field, "max-age=%" PRIu64 "%s", until, subdomains ? "; includeSubDomains" : "");
    done(fiorrudda_note_host(&p->book, host.at, host.len, (uint8_t *)field, strlen(field), 0), "host");
}

static void begin_document(play *p) {
    text url = next_text(), top = next_text();
    done(fiorrudda_client(&p->client, url.at, url.len, top.at, top.len, (uint32_t)next_number()), "client");
    uint8_t room[512];
    size_t len = 0;
    done(fiorrudda_origin(top.at, top.len, room, sizeof room, &len), "origin");
    printf("fetchplay 1\ndocument 0 %.*s\n", (int)len, (char *)room);
}

static void begin_request(play *p, bool loads) {
    static const char *const kinds[] = {LOAD_NAMES};
    p->loads = loads;
    if (loads) {
        uint32_t kind = (uint32_t)next_number();
        text url = next_text();
        done(fiorrudda_load(&p->request, kind, url.at, url.len), "load");
        printf("load %u %s\n", p->fetches++, kinds[kind]);
    } else {
        text method = next_text(), url = next_text();
        done(fiorrudda_request(&p->request, method.at, method.len, url.at, url.len), "request");
        printf("fetch %u\n", p->fetches++);
    }
}

static void play_line(play *p, const char *first) {
    if (!strcmp(first, "limit")) {
        p->limit = (uint32_t)next_number();
    } else if (!strcmp(first, "piece")) {
        uint64_t piece = next_number();
        p->piece = p->piece ? p->piece : piece;
    } else if (!strcmp(first, "host")) {
        add_host(p);
    } else if (!strcmp(first, "now") || !strcmp(first, "wait")) {
        p->now += next_number();
    } else if (!strcmp(first, "server")) {
        add_server(p);
    } else if (!strcmp(first, "rule")) {
        add_rule(p);
    } else if (!strcmp(first, "document")) {
        begin_document(p);
    } else if (!strcmp(first, "policy")) {
        text value = next_text();
        done(fiorrudda_client_policy(&p->client, value.at, value.len, next_number() != 0), "policy");
    } else if (!strcmp(first, "cookie")) {
        text origin = next_text(), value = next_text();
        done(fiorrudda_client_cookie(&p->client, origin.at, origin.len, value.at, value.len), "cookie");
    } else if (!strcmp(first, "fetch") || !strcmp(first, "load")) {
        begin_request(p, *first == 'l');
    } else if (!strcmp(first, "choose")) {
        uint32_t choice = (uint32_t)next_number();
        done(fiorrudda_request_choose(&p->request, choice, (uint32_t)next_number()), "choose");
    } else if (!strcmp(first, "header")) {
        text name = next_text(), value = next_text();
        done(fiorrudda_request_header(&p->request, name.at, name.len, value.at, value.len), "header");
    } else if (!strcmp(first, "text")) {
        uint32_t which = (uint32_t)next_number();
        text it = next_text();
        done(fiorrudda_request_text(&p->request, which, it.at, it.len), "text");
    } else if (!strcmp(first, "run")) {
        run(p);
    } else if (!strcmp(first, "over")) {
        p->ending = "limit commands";
    } else if (!strcmp(first, "tell")) {
        tell(p);
    } else if (strcmp(first, "end")) {
        fail("an unknown line");
    }
}

int main(int argc, char **argv) {
    play p = {.ending = "finished"};
    p.piece = argc > 1 ? strtoul(argv[1], NULL, 10) : 0;
    p.calls = open_memstream(&p.history, &p.history_len);
    if (!p.calls)
        fail("no memory");
    done(fiorrudda_book(&p.book), "book");
    char *line = NULL;
    size_t room = 0;
    while (getline(&line, &room, stdin) > 0)
        play_line(&p, strtok(line, " \n"));
    fclose(p.calls);
    printf("end %s\nhistory\n%sdone\n", p.ending, p.history);
    fiorrudda_free(&p.fetch);
    fiorrudda_free(&p.request);
    fiorrudda_free(&p.client);
    fiorrudda_free(&p.book);
    return 0;
}
