// Whole plays of scenarios, from C: what is played, what is refused and where, what an audit says, what is reported, and
// room that is too little. Ends with the line of the first case that is not as it should be.
//
//     plays FILE
//
// writes the text of the play of the scenario in FILE; or the place at which it is refused, and then its status is 2.
#include "holds.h"

#define SERVER "\"servers\": [{\"origin\": \"https://a.test\", \"rules\": [{\"status\": 200, \"body\": \"hi\\n\"}]}]"
#define DOCUMENT "{\"url\": \"https://a.test/\", \"script\": [{\"fetch\": {\"url\": \"/b\"}}]}"
#define SCENARIO "{\"format\": 1, " SERVER ", \"documents\": [" DOCUMENT "]}"
#define TWO "{\"format\": 2, " SERVER ", \"documents\": [" DOCUMENT ", " DOCUMENT "]}"
#define EVENTS(number) \
    "document " number " https://a.test\nfetch 0\nsend https://a.test\n  GET /b HTTP/1.1\n  Host: a.test\n" \
    "  Accept: */*\n  User-Agent: fetchplay/1\n  Accept-Encoding: identity\n  Referer: https://a.test/\n" \
    "  Connection: close\nresult basic 200 https://a.test/b\n  body whole 3: hi\\x0a\nend finished\n"
#define PLAY "fetchplay 1\n" EVENTS("0") "history\ndone\n"

static uint8_t room[4096];
static size_t len;

static void unwritten(void) {
    len = 77;
    memset(room, 0xEE, sizeof room);
}

// Behind what was written nothing is.
static bool says(const char *text, size_t size) {
    bool is = len == size && !memcmp(room, text, size);
    for (size_t at = size; at < sizeof room; at++) is = is && room[at] == 0xEE;
    return is;
}

#define SAYS(text) HOLDS(says(text, sizeof(text) - 1))

static void played(void) {
    unwritten();
    IS(OK, fiorrudda_play(T(SCENARIO), room, sizeof room, &len));
    SAYS(PLAY);
    // The same again: nothing is kept of a play.
    unwritten();
    IS(OK, fiorrudda_play(T(SCENARIO), room, sizeof room, &len));
    SAYS(PLAY);
    unwritten();
    IS(OK, fiorrudda_play(T(TWO), room, sizeof room, &len));
    SAYS("fetchplay 1\n" EVENTS("0") EVENTS("1") "history\ndone\n");
    unwritten();
    IS(OK, fiorrudda_play(T("{\"format\":1,\"documents\":[]}"), room, sizeof room, &len));
    SAYS("fetchplay 1\nhistory\ndone\n");
}

#define ASKED "{\"fetch\": {\"url\": \"https://b.test/\", \"method\": \"PUT\"}}"
#define PUT "{\"url\": \"https://a.test/\", \"script\": [" ASKED "]}"
#define LETS "[[\"Access-Control-Allow-Origin\", \"*\"], [\"Access-Control-Allow-Methods\", \"PUT\"]]"
#define OTHER "[{\"origin\": \"https://b.test\", \"rules\": [{\"status\": 200, \"headers\": " LETS "}]}]"
#define SHARED "{\"format\": 1, \"servers\": " OTHER ", \"documents\": [" PUT ", " PUT "]}"
#define COVERS "covers https://a.test https://a.test other PUT () https://b.test/ at 0: "
#define LEARN "learn https://a.test https://a.test other 5 PUT () https://b.test/ at 0: done"

// Documents share the book: the first has it learn what the second need not ask for.
static void shared(void) {
    static const char wanted[] = "history\n0 0 " COVERS "no\n1 0 " LEARN "\n2 1 " COVERS "yes\ndone\n";
    unwritten();
    IS(OK, fiorrudda_play(T(SHARED), room, sizeof room - 1, &len));
    room[len] = 0;
    HOLDS(len > strlen(wanted) && !strcmp((char *)room + len - strlen(wanted), wanted));
}

#define REFUSED(scenario, place) \
    do { \
        unwritten(); \
        IS(NO, fiorrudda_play(T(scenario), room, sizeof room, &len)); \
        SAYS(place); \
    } while (0)

static void refusals(void) {
    REFUSED("{\"format\": 1, \"documents\": [{\"url\": \"/\", \"script\": []}]}", "/documents/0/url");
    REFUSED("{\"format\": 1, \"documents\": [" DOCUMENT ", {\"url\": \"https://a.test/\", \"script\": [{}]}]}",
            "/documents/1/script/0");
    REFUSED("{\"format\": 1, \"servers\": [{\"origin\": \"https://a.test\", \"rules\": [{\"status\": 99}]}],"
            " \"documents\": []}", "/servers/0/rules/0/status");
    REFUSED("{\"format\": 3, \"documents\": []}", "/format");
    REFUSED("{\"format\": 1}", "/documents");
    REFUSED("{\"format\": 1, \"documents\": [], \"extra\": 0}", "/");
    REFUSED("{\"format\":", "json");
    REFUSED("", "json");
    REFUSED("\xff", "json");
    REFUSED("\xef\xbb\xbf" SCENARIO, "json");
    REFUSED(SCENARIO "\0", "json");
    REFUSED("[]", "/");
    // A scenario that was cut short is none, at whatever byte.
    for (size_t size = 0; size < sizeof(SCENARIO) - 1; size++) {
        unwritten();
        IS(NO, fiorrudda_play((const uint8_t *)SCENARIO, size, room, sizeof room, &len));
        SAYS("json");
    }
}

// In too little room nothing is written, and the length is told; and just enough is enough.
static void narrow(const uint8_t *scenario, size_t size, uint32_t wanted, const char *text) {
    size_t needed = strlen(text);
    for (size_t room_len = 0; room_len <= needed; room_len++) {
        unwritten();
        uint32_t code = fiorrudda_play(scenario, size, room, room_len, &len);
        HOLDS(code == (room_len < needed ? FIORRUDDA_TOO_SHORT : wanted) && len == needed);
        HOLDS(room_len < needed ? room[0] == 0xEE : says(text, needed));
    }
    // With length 0 the pointer may point anywhere.
    len = 77;
    IS(TOO_SHORT, fiorrudda_play(scenario, size, (uint8_t *)1, 0, &len));
    HOLDS(len == needed);
}

#define AUDITED(code, scenario, play, line) \
    do { \
        unwritten(); \
        IS(code, fiorrudda_audit(T(scenario), T(play), room, sizeof room, &len)); \
        SAYS(line); \
    } while (0)

static void audits(void) {
    AUDITED(OK, SCENARIO, PLAY, "play\n");
    AUDITED(NO, "{}", PLAY, "not a play: Scenario /format\n");
    AUDITED(NO, SCENARIO, "", "not a play: History 0\n");
    AUDITED(NO, SCENARIO, "fetchplay 1\n" EVENTS("0") "history\n?\ndone\n", "not a play: History 1\n");
    AUDITED(NO, SCENARIO, "fetchplay 2\n" EVENTS("0") "history\ndone\n", "not a play: Text 10\n");
    AUDITED(NO, SHARED, PLAY, "not a play: Calls 0\n");
    // In too little room nothing is written, and the length is told.
    for (size_t room_len = 0; room_len < 5; room_len++) {
        unwritten();
        IS(TOO_SHORT, fiorrudda_audit(T(SCENARIO), T(PLAY), room, room_len, &len));
        HOLDS(len == 5 && room[0] == 0xEE);
    }
}

#define REPORTING "{\"url\": \"https://a.test/\", \"headers\": [[\"Content-Security-Policy\", \"connect-src 'none'; report-uri /r\"]], " \
    "\"script\": [{\"fetch\": {\"url\": \"/b\"}}]}"
#define NONE "document 0 https://a.test\nend finished\nhistory\ndone\n"

#define REPORTED(code, scenario, text) \
    do { \
        unwritten(); \
        IS(code, fiorrudda_reports(T(scenario), room, sizeof room, &len)); \
        SAYS(text); \
    } while (0)

#define FOUR(document) document ", " document ", " document ", " document

static void reports(void) {
    REPORTED(OK, SCENARIO, "cspreport 1\n" NONE);
    REPORTED(NO, "{}", "/format");
    REPORTED(NO, "{\"format\": 1, \"documents\": [" FOUR(FOUR(DOCUMENT)) ", " DOCUMENT "]}", "/documents");
    unwritten();
    IS(OK, fiorrudda_reports(T("{\"format\": 1, " SERVER ", \"documents\": [" REPORTING "]}"), room, sizeof room - 1, &len));
    room[len] = 0;
    HOLDS(strstr((char *)room, "\nreport 0\n") && strstr((char *)room, "  POST /r HTTP/1.1\n"));
    // In too little room nothing is written, and the length is told.
    size_t needed = strlen("cspreport 1\n" NONE);
    for (size_t room_len = 0; room_len < needed; room_len++) {
        unwritten();
        IS(TOO_SHORT, fiorrudda_reports(T(SCENARIO), room, room_len, &len));
        HOLDS(len == needed && room[0] == 0xEE);
    }
}

static int file(const char *name) {
    size_t size = 0, got = 1, room_len = 1 << 20;
    uint8_t *scenario = NULL, *text = malloc(room_len);
    FILE *in = fopen(name, "rb");
    HOLDS(in && text);
    for (; got; size += got) {
        scenario = realloc(scenario, size + 65536);
        HOLDS(scenario);
        got = fread(scenario + size, 1, 65536, in);
    }
    fclose(in);
    uint32_t code = fiorrudda_play(scenario, size, text, room_len, &len);
    if (code == FIORRUDDA_TOO_SHORT) {
        text = realloc(text, room_len = len);
        HOLDS(text);
        code = fiorrudda_play(scenario, size, text, room_len, &len);
    }
    HOLDS(code == FIORRUDDA_OK || code == FIORRUDDA_NO);
    fwrite(text, 1, len, stdout);
    free(text);
    free(scenario);
    return code == FIORRUDDA_OK ? 0 : 2;
}

int main(int count, char **words) {
    if (count > 1) return file(words[1]);
    played();
    shared();
    refusals();
    audits();
    reports();
    narrow(T(SCENARIO), FIORRUDDA_OK, PLAY);
    narrow(T("{\"format\": 1, \"documents\": [{\"url\": \"/\"}]}"), FIORRUDDA_NO, "/documents/0/url");
    narrow(T("{"), FIORRUDDA_NO, "json");
    puts("plays: ok");
    return 0;
}
