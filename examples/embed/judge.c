// For a judge of many: what would a browser make of each of these loads?
//
//     judge < LOADS
//
// reads a line for each load: the page's URL, what is loaded (as image or script), its URL and the value of the policy's
// header, with a tab between each two. It prints a line for each: `sends` and the URL that the browser asks, upgraded where
// it upgrades it; or `refused` and the name of the error, with the directives that are violated; or `no answer` with the
// library's code. The page and the policy of a line are kept for those behind it that have the same, so sorted lines are
// judged the fastest: a policy is read once. The exit status is 2 where a line is none.
#include <stdio.h>
#include <stdlib.h>
#include <string.h>
#include "fiorrudda.h"

enum { PAGE, KIND, URL, POLICY, PARTS, MOST = 65536 };

// What one load after the other is judged by. The page and the policy are those of `client`.
typedef struct judge {
    char *page, *policy;
    fiorrudda_handle client, request, fetch, book, violations;
} judge;

static const char *const KINDS[] = {[FIORRUDDA_LOAD_IMAGE] = "image", [FIORRUDDA_LOAD_AUDIO] = "audio",
    [FIORRUDDA_LOAD_VIDEO] = "video", [FIORRUDDA_LOAD_STYLE] = "style", [FIORRUDDA_LOAD_SCRIPT] = "script",
    [FIORRUDDA_LOAD_FONT] = "font", [FIORRUDDA_LOAD_MANIFEST] = "manifest"};

#define T(text) (const uint8_t *)(text), strlen(text)

// Splits a line at its tabs; the policy may have some of its own. False where there are too few.
static bool split(char *line, char **parts) {
    line[strcspn(line, "\n")] = 0;
    for (int at = 0; at < PARTS; at++) {
        parts[at] = line;
        if (at == POLICY) return true;
        char *tab = strchr(line, '\t');
        if (!tab) return false;
        *tab = 0;
        line = tab + 1;
    }
    return true;
}

static uint32_t kind_of(const char *word) {
    for (uint32_t at = FIORRUDDA_LOAD_IMAGE; at <= FIORRUDDA_LOAD_MANIFEST; at++)
        if (!strcmp(word, KINDS[at])) return at;
    return 0; // which is none: the library says so
}

static void forget(judge *j) {
    free(j->page);
    free(j->policy);
    j->page = j->policy = NULL;
}

// Makes the client, where the last one is another.
static uint32_t client_of(judge *j, const char *page, const char *policy) {
    if (j->page && j->policy && !strcmp(j->page, page) && !strcmp(j->policy, policy)) return FIORRUDDA_OK;
    forget(j);
    uint32_t code = fiorrudda_client(&j->client, T(page), T(page), FIORRUDDA_REFERRER_DEFAULT);
    if (!code) code = fiorrudda_client_policy(&j->client, T(policy), true);
    if (code) return code;
    j->page = strdup(page);
    j->policy = strdup(policy);
    return FIORRUDDA_OK;
}

static void print_text(fiorrudda_handle *fetch, uint32_t which) {
    uint8_t room[8192];
    size_t len;
    if (fiorrudda_text(fetch, which, 0, room, sizeof room, &len) == FIORRUDDA_OK) fwrite(room, 1, len, stdout);
}

// What came of a load before anything is sent.
static void tell(judge *j, uint32_t act) {
    uint8_t room[64];
    size_t len;
    fputs(act == FIORRUDDA_ACT_SEND ? "sends " : "refused ", stdout);
    print_text(&j->fetch, act == FIORRUDDA_ACT_SEND ? FIORRUDDA_TEXT_ORIGIN : FIORRUDDA_TEXT_WORD);
    if (act == FIORRUDDA_ACT_SEND) print_text(&j->fetch, FIORRUDDA_TEXT_URL);
    for (size_t at = 0; fiorrudda_violation_directive(&j->violations, at, room, sizeof room, &len) == FIORRUDDA_OK; at++)
        printf(" %.*s", (int)len, (char *)room);
    putchar('\n');
}

static void judge_line(judge *j, char **parts) {
    uint32_t act, fault, header, code = client_of(j, parts[PAGE], parts[POLICY]);
    if (!code) code = fiorrudda_load(&j->request, kind_of(parts[KIND]), T(parts[URL]));
    if (!code) code = fiorrudda_fetch(&j->fetch, &j->client, &j->request, 0, 0, &fault, &header);
    if (!code) code = fiorrudda_judge(&j->fetch, &j->book, &j->violations, &act);
    if (!code) tell(j, act);
    else printf("no answer %u\n", (unsigned)code);
}

int main(void) {
    static char line[MOST];
    judge j = {0};
    char *parts[PARTS];
    int status = fiorrudda_book(&j.book) ? 1 : 0; // an empty one, which stays so until something is sent
    while (!status && fgets(line, sizeof line, stdin)) {
        if (strchr(line, '\n') && split(line, parts)) judge_line(&j, parts);
        else status = 2;
    }
    if (status) fputs(status == 1 ? "judge: out of memory\n" : "judge: a line is none of four parts\n", stderr);
    fiorrudda_handle *all[] = {&j.client, &j.request, &j.fetch, &j.book, &j.violations};
    for (size_t at = 0; at < sizeof all / sizeof *all; at++) fiorrudda_free(all[at]);
    forget(&j);
    return status;
}
