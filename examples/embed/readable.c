// For a proxy: would the page of the request's Origin be allowed to read this answer?
//
//     readable SCHEME REQUEST ANSWER
//
// reads the head of a request and the head of its answer, each from a file or a pipe, of which it reads no more than the head
// needs, and prints one line. SCHEME is http or https, as the server was asked. The exit status is 0 where the page may read
// the answer, 1 where it may not, and 2 where there is nothing to decide or a head is no head.
//
// A Cookie shows that the page asked with credentials. Where none came it may have done so all the same, so what is
// readable without credentials alone is said to be so.
#include <stdio.h>
#include <stdlib.h>
#include <string.h>
#include "fiorrudda.h"

enum { MOST = 65536, READ = 0, KEPT = 1, UNDECIDED = 2 };

static int say(int status, const char *text) {
    puts(text);
    return status;
}

// Reads the head of a file: all up to the first empty line, which ends in CR LF, without that line. False where there is none.
static bool read_head(const char *path, char *head) {
    FILE *file = fopen(path, "rb");
    size_t len = 0;
    int byte = 0;
    while (file && len < MOST && (byte = getc(file)) > 0) {
        head[len++] = (char)byte;
        if (len >= 4 && !memcmp(head + len - 4, "\r\n\r\n", 4)) {
            fclose(file);
            head[len - 2] = 0;
            return true;
        }
    }
    if (file) fclose(file);
    return false;
}

// Appends the header lines behind the first line to a list, and says whether they all were header lines.
static bool listed(char *head, fiorrudda_handle *headers) {
    char *line = strstr(head, "\r\n") + 2;
    while (*line) {
        char *end = strstr(line, "\r\n"), *colon = memchr(line, ':', (size_t)(end - line));
        if (!colon) return false;
        char *value = colon + 1, *last = end;
        while (value < last && (*value == ' ' || *value == '\t')) value++;
        while (last > value && (last[-1] == ' ' || last[-1] == '\t')) last--;
        if (fiorrudda_append(headers, (uint8_t *)line, (size_t)(colon - line), (uint8_t *)value, (size_t)(last - value))) return false;
        line = end + 2;
    }
    return true;
}

typedef struct text {
    uint8_t at[1024];
    size_t len;
} text;

static bool got(fiorrudda_handle *headers, const char *name, text *value) {
    return fiorrudda_get(headers, (const uint8_t *)name, strlen(name), value->at, sizeof value->at, &value->len) == FIORRUDDA_OK;
}

// Whether the page is of the server's own origin, whose answers it reads without a CORS check.
static bool is_own(const text *origin, const char *scheme, fiorrudda_handle *asked) {
    text host;
    char url[sizeof host.at + 16];
    if (!got(asked, "Host", &host)) return false;
    int len = snprintf(url, sizeof url, "%s://%.*s/", scheme, (int)host.len, (char *)host.at);
    return fiorrudda_same_origin(origin->at, origin->len, (uint8_t *)url, (size_t)len) == FIORRUDDA_OK;
}

static int checked(const text *origin, bool cookie, fiorrudda_handle *told) {
    if (fiorrudda_cors_check(origin->at, origin->len, true, told) == FIORRUDDA_OK) return say(READ, "readable");
    if (fiorrudda_cors_check(origin->at, origin->len, false, told) != FIORRUDDA_OK) return say(KEPT, "not readable");
    return cookie ? say(KEPT, "not readable, with credentials") : say(READ, "readable, without credentials");
}

static int decided(const char *scheme, char *request, char *answer, fiorrudda_handle *asked, fiorrudda_handle *told) {
    text origin, cookie;
    if (fiorrudda_headers(asked) || fiorrudda_headers(told)) return say(UNDECIDED, "no memory");
    if (!listed(request, asked) || !listed(answer, told)) return say(UNDECIDED, "a line of a head is no header");
    if (!got(asked, "Origin", &origin)) return say(UNDECIDED, "the request names no origin");
    if (is_own(&origin, scheme, asked)) return say(READ, "readable, of the page's own origin");
    cookie.len = 0;
    return checked(&origin, got(asked, "Cookie", &cookie) || cookie.len, told);
}

int main(int count, char **words) {
    static char request[MOST + 1], answer[MOST + 1];
    if (count != 4) return say(UNDECIDED, "readable takes http or https, the file of a request and that of its answer");
    if (!read_head(words[2], request) || !read_head(words[3], answer)) return say(UNDECIDED, "there is no whole head");
    fiorrudda_handle asked = {0}, told = {0};
    int status = decided(words[1], request, answer, &asked, &told);
    fiorrudda_free(&asked);
    fiorrudda_free(&told);
    return status;
}
