// A client: makes the fetch that a script of a page would make, over TCP, and over TLS where the URL says https.
//
//     client URL PAGE
//
// prints what the script would see: the status, the headers, an empty line and the body. The library says what is to be done
// next, and is told what came of it; this program connects, sends and receives. Each request is sent once, over a connection
// of its own. Certificates are verified against those that the system trusts, or those of SSL_CERT_FILE.
//
// The exit status is 0 where the script may read the answer, 1 where the fetch is refused, and 2 where the words are wrong or
// memory is refused.
#include <netdb.h>
#include <openssl/ssl.h>
#include <signal.h>
#include <stdio.h>
#include <stdlib.h>
#include <string.h>
#include <sys/socket.h>
#include <time.h>
#include <unistd.h>
#include "fiorrudda.h"

enum { PIECE = 16384, LIMIT = 1 << 20 };
enum { READ = 0, REFUSED = 1, WRONG = 2 };

// ---- a connection

typedef struct wire {
    SSL_CTX *trust;
    int socket; // -1 where there is none
    SSL *tls;   // NULL where it is plain
} wire;

static void hang_up(wire *w) {
    if (w->tls) SSL_free(w->tls);
    if (w->socket >= 0) close(w->socket);
    w->tls = NULL;
    w->socket = -1;
}

// Takes the scheme, the host and the port out of a serialised origin, as `https://[::1]:8443`.
static bool parted(char *origin, bool *secure, char **host, char **port) {
    *secure = !strncmp(origin, "https://", 8);
    *host = strstr(origin, "://") + 3;
    *port = *secure ? "443" : "80";
    char *end = strrchr(*host, ']'), *colon = strchr(end ? end : *host, ':');
    if (colon) {
        *colon = 0;
        *port = colon + 1;
    }
    if (**host == '[') {
        ++*host;
        *end = 0;
    }
    return **host;
}

static bool connected(wire *w, const char *host, const char *port) {
    struct addrinfo like = {.ai_socktype = SOCK_STREAM}, *found = NULL;
    if (getaddrinfo(host, port, &like, &found)) return false;
    for (struct addrinfo *it = found; it && w->socket < 0; it = it->ai_next) {
        w->socket = socket(it->ai_family, it->ai_socktype, it->ai_protocol);
        if (w->socket >= 0 && connect(w->socket, it->ai_addr, it->ai_addrlen)) hang_up(w);
    }
    freeaddrinfo(found);
    return w->socket >= 0;
}

// Shakes hands over TLS, with a certificate that is for the host.
static bool secured(wire *w, const char *host) {
    w->tls = SSL_new(w->trust);
    return w->tls && SSL_set_tlsext_host_name(w->tls, host) && SSL_set1_host(w->tls, host) && SSL_set_fd(w->tls, w->socket) &&
           SSL_connect(w->tls) == 1;
}

static bool opened(wire *w, char *origin) {
    bool secure;
    char *host, *port;
    hang_up(w);
    return parted(origin, &secure, &host, &port) && connected(w, host, port) && (!secure || secured(w, host));
}

static bool sent(wire *w, const uint8_t *bytes, size_t len) {
    while (len) {
        size_t part = len < PIECE ? len : PIECE;
        ssize_t done = w->tls ? SSL_write(w->tls, bytes, (int)part) : send(w->socket, bytes, part, MSG_NOSIGNAL);
        if (done <= 0) return false;
        bytes += done;
        len -= (size_t)done;
    }
    return true;
}

// The next bytes of the answer: how many came, 0 at its end, and less than 0 where the connection failed.
static ssize_t received(wire *w, uint8_t *room) {
    if (!w->tls) return recv(w->socket, room, PIECE, 0);
    int came = SSL_read(w->tls, room, PIECE);
    if (came > 0) return came;
    return SSL_get_error(w->tls, came) == SSL_ERROR_ZERO_RETURN ? 0 : -1;
}

// ---- what the fetch says

// A text of the act or the outcome with a NUL behind it, which is to be freed, and its length. NULL where there is none.
static uint8_t *text(fiorrudda_handle *fetch, uint32_t which, size_t at, size_t *len) {
    uint8_t none[1];
    uint32_t code = fiorrudda_text(fetch, which, at, none, 0, len);
    if (code != FIORRUDDA_OK && code != FIORRUDDA_TOO_SHORT) return NULL;
    uint8_t *made = malloc(*len + 1);
    if (!made || fiorrudda_text(fetch, which, at, made, *len, len)) {
        free(made);
        return NULL;
    }
    made[*len] = 0;
    return made;
}

static uint64_t number(fiorrudda_handle *fetch, uint32_t which) {
    uint64_t it = 0;
    fiorrudda_number(fetch, which, &it);
    return it;
}

// Connects to the server that is asked, and sends it the request.
static bool asked(wire *w, fiorrudda_handle *fetch) {
    size_t len = 0;
    uint8_t none[1], *origin = text(fetch, FIORRUDDA_TEXT_ORIGIN, 0, &len);
    bool done = origin && opened(w, (char *)origin);
    free(origin);
    if (!done || fiorrudda_to_send(fetch, none, 0, &len) != FIORRUDDA_TOO_SHORT) return false;
    uint8_t *request = malloc(len);
    done = request && !fiorrudda_to_send(fetch, request, len, &len) && sent(w, request, len);
    free(request);
    return done;
}

static void print_text(fiorrudda_handle *fetch, uint32_t which, size_t at, const char *behind) {
    size_t len = 0;
    uint8_t *it = text(fetch, which, at, &len);
    if (it) fwrite(it, 1, len, stdout);
    free(it);
    fputs(behind, stdout);
}

// Prints the outcome, and gives the exit status.
static int told(fiorrudda_handle *fetch) {
    if (number(fetch, FIORRUDDA_NUMBER_OUTCOME) == FIORRUDDA_OUTCOME_ERROR) {
        printf("refused: ");
        print_text(fetch, FIORRUDDA_TEXT_WORD, 0, "\n");
        return REFUSED;
    }
    printf("%u\n", (unsigned)number(fetch, FIORRUDDA_NUMBER_STATUS));
    for (size_t at = 0; at < number(fetch, FIORRUDDA_NUMBER_HEADERS); at++) {
        print_text(fetch, FIORRUDDA_TEXT_HEADER_NAME, at, ": ");
        print_text(fetch, FIORRUDDA_TEXT_HEADER_VALUE, at, "\n");
    }
    putchar('\n');
    print_text(fetch, FIORRUDDA_TEXT_BODY, 0, "");
    return READ;
}

// ---- the acts

// What is received and not yet read by the fetch.
typedef struct piece {
    uint8_t bytes[PIECE];
    size_t from, to;
    bool due; // the fetch is handed what is left, be it nothing, before more is received
} piece;

// Hands the fetch what is left of the last piece; or receives, and hands in what came.
static uint32_t read_on(wire *w, fiorrudda_handle *fetch, piece *p) {
    if (!p->due && p->from == p->to) {
        ssize_t came = received(w, p->bytes);
        if (came <= 0) return fiorrudda_input(fetch, came ? FIORRUDDA_INPUT_FAILED : FIORRUDDA_INPUT_ENDED);
        p->from = 0;
        p->to = (size_t)came;
    }
    size_t used = 0;
    uint32_t code = fiorrudda_feed(fetch, p->bytes + p->from, p->to - p->from, &used);
    p->from += used;
    p->due = false;
    return code;
}

static int run(wire *w, fiorrudda_handle *fetch, fiorrudda_handle *book, fiorrudda_handle *violations) {
    piece p = {.from = 0};
    uint32_t act = FIORRUDDA_ACT_GONE, before, code = FIORRUDDA_OK;
    do {
        before = act;
        if (fiorrudda_judge(fetch, book, violations, &act)) return WRONG;
        p.due = p.due || act != before;
        switch (act) {
        case FIORRUDDA_ACT_OVER: return told(fetch);
        case FIORRUDDA_ACT_SEND:
            code = fiorrudda_input(fetch, asked(w, fetch) ? FIORRUDDA_INPUT_SENT : FIORRUDDA_INPUT_FAILED);
            p.from = p.to = 0;
            break;
        case FIORRUDDA_ACT_READ_HEAD:
        case FIORRUDDA_ACT_READ_BODY: code = read_on(w, fetch, &p); break;
        case FIORRUDDA_ACT_GONE: return WRONG;
        }
    } while (!code);
    return WRONG;
}

static int fetched(wire *w, const char *url, const char *page) {
    fiorrudda_handle client = {0}, request = {0}, fetch = {0}, book = {0}, violations = {0};
    uint32_t fault, header;
    const uint8_t *from = (const uint8_t *)page;
    int status = WRONG;
    if (fiorrudda_client(&client, from, strlen(page), from, strlen(page), FIORRUDDA_REFERRER_DEFAULT) ||
        fiorrudda_request(&request, (const uint8_t *)"GET", 3, (const uint8_t *)url, strlen(url)) || fiorrudda_book(&book) ||
        fiorrudda_fetch(&fetch, &client, &request, (uint64_t)time(NULL), LIMIT, &fault, &header))
        puts("client: no such fetch can be made");
    else
        status = run(w, &fetch, &book, &violations);
    fiorrudda_free(&client);
    fiorrudda_free(&request);
    fiorrudda_free(&fetch);
    fiorrudda_free(&book);
    fiorrudda_free(&violations);
    return status;
}

int main(int count, char **words) {
    if (count != 3) {
        puts("client URL PAGE");
        return WRONG;
    }
    signal(SIGPIPE, SIG_IGN); // a server that hangs up makes a write fail
    wire w = {SSL_CTX_new(TLS_client_method()), -1, NULL};
    if (!w.trust || !SSL_CTX_set_default_verify_paths(w.trust)) return WRONG;
    SSL_CTX_set_verify(w.trust, SSL_VERIFY_PEER, NULL);
    int status = fetched(&w, words[1], words[2]);
    hang_up(&w);
    SSL_CTX_free(w.trust);
    return status;
}
