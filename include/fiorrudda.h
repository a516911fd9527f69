// Fiorrudda, a browser's fetch engine that is proved, for C. Written by embed/header from the exports: do not edit.
// docs/embedding.md says what is proved of each call and what a new version may change, docs/TRUST.md what that rests on.
//
// A code other than FIORRUDDA_OK and FIORRUDDA_NO is no answer, neither yes nor no: compare with the one of the two that
// permits, which docs/embedding.md lists.
//
// A text is a pointer and a length in bytes, of any bytes. A pointer is never null; with length 0 it may point anywhere.
// Nothing is kept of what was lent to a call, and two things that are lent to one call do not overlap, unless both are
// only read. Any call may be made at any time: what it is given, it takes or refuses by a code. A handle is used by one
// thread at a time; otherwise calls may run side by side. Times are in seconds.
//
// Limits: a URL has at most 8,192 bytes, and its text 786,432; the method and headers of a request together 16,384, its
// body 65,536; the head of an answer 65,536, its body as many as `fiorrudda_fetch` is told. A book keeps 4,096 hosts, and 64
// entries of a key of the preflight cache: one more drops the host whose term ends first, or the oldest entry of the key.
//
// Below, after the constants, stand the calls by what they are for, each group with an example. In the examples T(text) is
// (const uint8_t *)(text), sizeof(text) - 1 of a literal; handles are zeroed at first, as fiorrudda_handle book = {0};,
// `room` is an array of bytes, and what is made is freed at last by fiorrudda_free. Where an example takes no notice of a
// code, a program would.
#pragma once
#include <stdbool.h>
#include <stddef.h>
#include <stdint.h>
#ifdef __cplusplus
extern "C" {
#endif

/// The version of this header, as a number: 10,000 times its first part, 100 times its second, and its third.
#define FIORRUDDA_VERSION 10200u
/// The same as a text.
#define FIORRUDDA_VERSION_TEXT "1.2.0"
/// The version of the library that is linked; as long as this is a macro, that of the header.
#define fiorrudda_version() FIORRUDDA_VERSION

/// It was done; it holds; it passes.
#define FIORRUDDA_OK 0u

/// It does not hold; it does not pass; there is none.
#define FIORRUDDA_NO 1u

/// A handle holds nothing of the kind that the call is for. Nothing is changed.
#define FIORRUDDA_WRONG_HANDLE 2u

/// Memory was refused. What handles hold is as it was, except that the fetch given to `fiorrudda_ask`,
/// `fiorrudda_input`, `fiorrudda_feed` or `fiorrudda_judge` is lost, and that the book may have done what it was
/// asked: in `fiorrudda_ask` the call, and then `reply` is written; in `fiorrudda_judge` some calls. No other answer
/// is written, except that `fiorrudda_feed` tells that no byte was taken.
#define FIORRUDDA_OUT_OF_MEMORY 3u

/// The room for the answer is too short. Nothing is written but how many bytes the answer has.
#define FIORRUDDA_TOO_SHORT 4u

/// A number stands for none of what there is.
#define FIORRUDDA_NO_SUCH_NUMBER 5u

/// A text is not UTF-8, or gives no URL by itself.
#define FIORRUDDA_NOT_A_URL 6u

/// A URL is neither http nor https.
#define FIORRUDDA_NOT_HTTP 7u

/// A name is no token, or a value no header value.
#define FIORRUDDA_NOT_A_HEADER 8u

/// A time is 2^48 seconds or more.
#define FIORRUDDA_TOO_LATE 9u

/// What came is not what the fetch awaits. What handles hold is as it was.
#define FIORRUDDA_NOT_AWAITED 10u

/// No request can be made of what is asked for; `fiorrudda_fetch` tells why.
#define FIORRUDDA_NO_REQUEST 11u

/// A host is no domain as a URL has it, or a localhost name: it is never known.
#define FIORRUDDA_NOT_A_HOST 12u

/// No policy: the default one, strict-origin-when-cross-origin, counts.
#define FIORRUDDA_REFERRER_DEFAULT 0u

#define FIORRUDDA_REFERRER_NO_REFERRER 1u

#define FIORRUDDA_REFERRER_NO_REFERRER_WHEN_DOWNGRADE 2u

#define FIORRUDDA_REFERRER_SAME_ORIGIN 3u

#define FIORRUDDA_REFERRER_ORIGIN 4u

#define FIORRUDDA_REFERRER_STRICT_ORIGIN 5u

#define FIORRUDDA_REFERRER_ORIGIN_WHEN_CROSS_ORIGIN 6u

#define FIORRUDDA_REFERRER_STRICT_ORIGIN_WHEN_CROSS_ORIGIN 7u

#define FIORRUDDA_REFERRER_UNSAFE_URL 8u

/// Mode: one of the numbers FIORRUDDA_MODE_...
#define FIORRUDDA_CHOOSE_MODE 0u

#define FIORRUDDA_MODE_SAME_ORIGIN 0u

#define FIORRUDDA_MODE_NO_CORS 1u

#define FIORRUDDA_MODE_CORS 2u

#define FIORRUDDA_MODE_NAVIGATE 3u

/// Credentials mode: one of the numbers FIORRUDDA_CREDENTIALS_...
#define FIORRUDDA_CHOOSE_CREDENTIALS 1u

#define FIORRUDDA_CREDENTIALS_OMIT 0u

#define FIORRUDDA_CREDENTIALS_SAME_ORIGIN 1u

#define FIORRUDDA_CREDENTIALS_INCLUDE 2u

/// Redirect mode: one of the numbers FIORRUDDA_REDIRECT_...
#define FIORRUDDA_CHOOSE_REDIRECT 2u

#define FIORRUDDA_REDIRECT_FOLLOW 0u

#define FIORRUDDA_REDIRECT_ERROR 1u

#define FIORRUDDA_REDIRECT_MANUAL 2u

/// Whether the referrer is the client, 1, or none, 0.
#define FIORRUDDA_CHOOSE_REFERRER 3u

/// Referrer policy: one of the numbers FIORRUDDA_REFERRER_...
#define FIORRUDDA_CHOOSE_REFERRER_POLICY 4u

/// Whether an upload listener is there, 1, or not, 0.
#define FIORRUDDA_CHOOSE_UPLOAD 5u

/// The `crossorigin` attribute of an element that loads: one of the numbers FIORRUDDA_CROSSORIGIN_...
#define FIORRUDDA_CHOOSE_CROSSORIGIN 6u

#define FIORRUDDA_CROSSORIGIN_ABSENT 0u

#define FIORRUDDA_CROSSORIGIN_ANONYMOUS 1u

#define FIORRUDDA_CROSSORIGIN_USE_CREDENTIALS 2u

/// Whether a parser inserted the element that loads, 1, or not, 0.
#define FIORRUDDA_CHOOSE_PARSER 7u

/// What an element loads.
#define FIORRUDDA_LOAD_IMAGE 1u

#define FIORRUDDA_LOAD_AUDIO 2u

#define FIORRUDDA_LOAD_VIDEO 3u

#define FIORRUDDA_LOAD_STYLE 4u

#define FIORRUDDA_LOAD_SCRIPT 5u

#define FIORRUDDA_LOAD_FONT 6u

#define FIORRUDDA_LOAD_MANIFEST 7u

/// The texts of a request.
#define FIORRUDDA_REQUEST_BODY 0u

#define FIORRUDDA_REQUEST_INTEGRITY 1u

#define FIORRUDDA_REQUEST_NONCE 2u

/// What a fetch does next: nothing, it is over.
#define FIORRUDDA_ACT_OVER 0u

/// The book is to be asked or told: by `fiorrudda_ask`, or by `fiorrudda_input` with what another book says.
#define FIORRUDDA_ACT_ASK 1u

/// A request is to be sent: `fiorrudda_to_send` has its bytes, and FIORRUDDA_TEXT_ORIGIN the server's origin.
#define FIORRUDDA_ACT_SEND 2u

/// The head of the answer is to be read: `fiorrudda_feed` takes its bytes.
#define FIORRUDDA_ACT_READ_HEAD 3u

/// The body of the answer is to be read, by the same call: first the bytes behind the head, be there some or none.
#define FIORRUDDA_ACT_READ_BODY 4u

/// The document is to be told of a violation of its policies.
#define FIORRUDDA_ACT_TELL 5u

/// Memory was refused, and the fetch is lost: free it.
#define FIORRUDDA_ACT_GONE 6u

/// What came of an act: the request was sent.
#define FIORRUDDA_INPUT_SENT 0u

/// The document was told of the violation.
#define FIORRUDDA_INPUT_TOLD 1u

/// The server ended the answer, or closed the connection: no more bytes come.
#define FIORRUDDA_INPUT_ENDED 2u

/// The connection failed: the request could not be sent, or no more bytes can be received.
#define FIORRUDDA_INPUT_FAILED 3u

/// A book of the caller's own replied yes, to a question.
#define FIORRUDDA_INPUT_YES 4u

/// It replied no.
#define FIORRUDDA_INPUT_NO 5u

/// It was told.
#define FIORRUDDA_INPUT_DONE 6u

/// The serialised origin: of the server that is sent to, or of the request that a call of the preflight cache is for.
#define FIORRUDDA_TEXT_ORIGIN 0u

/// The request target that is sent, the URL of a call of the preflight cache, the one that violates a policy, or the
/// response's.
#define FIORRUDDA_TEXT_URL 1u

/// The method that is sent, or that the preflight cache is asked for, if any.
#define FIORRUDDA_TEXT_METHOD 2u

/// The body that is sent, or that came whole.
#define FIORRUDDA_TEXT_BODY 3u

/// The name of a header that is sent, or of the response.
#define FIORRUDDA_TEXT_HEADER_NAME 4u

/// The value of such a header.
#define FIORRUDDA_TEXT_HEADER_VALUE 5u

/// The host that the book is asked for or notes.
#define FIORRUDDA_TEXT_HOST 6u

/// The key of the preflight cache's part.
#define FIORRUDDA_TEXT_KEY 7u

/// A header name that the preflight cache is asked for or learns.
#define FIORRUDDA_TEXT_NAME 8u

/// A method that the preflight cache learns.
#define FIORRUDDA_TEXT_LEARNT 9u

/// The name of the directive that is violated, of the response's type, or of the network error.
#define FIORRUDDA_TEXT_WORD 10u

/// The name of the header that a preflight did not allow.
#define FIORRUDDA_TEXT_REFUSED 11u

/// What the book is asked or told: one of the numbers FIORRUDDA_CALL_...
#define FIORRUDDA_NUMBER_CALL 0u

/// The time of that, in seconds.
#define FIORRUDDA_NUMBER_TIME 1u

/// How many seconds a host or an entry is known.
#define FIORRUDDA_NUMBER_AGE 2u

/// 1 where the names under the host are known too.
#define FIORRUDDA_NUMBER_SUBDOMAINS 3u

/// 1 where the credentials mode is include.
#define FIORRUDDA_NUMBER_INCLUDE 4u

/// 1 where a preflight is sent.
#define FIORRUDDA_NUMBER_PREFLIGHT 5u

/// The number of the policy that is violated.
#define FIORRUDDA_NUMBER_POLICY 6u

/// 1 where that is enforced.
#define FIORRUDDA_NUMBER_ENFORCED 7u

/// What the fetch came to: one of the numbers FIORRUDDA_OUTCOME_...
#define FIORRUDDA_NUMBER_OUTCOME 8u

/// The response's status.
#define FIORRUDDA_NUMBER_STATUS 9u

/// The number of the network error: one of the numbers FIORRUDDA_ERROR_...
#define FIORRUDDA_NUMBER_ERROR 10u

/// How the body ended: one of the numbers FIORRUDDA_END_...
#define FIORRUDDA_NUMBER_END 11u

/// How many bytes of the body came.
#define FIORRUDDA_NUMBER_COUNT 12u

/// How many headers are sent, or the response has.
#define FIORRUDDA_NUMBER_HEADERS 13u

/// How many header names the preflight cache is asked for or learns.
#define FIORRUDDA_NUMBER_NAMES 14u

/// How many methods it learns.
#define FIORRUDDA_NUMBER_METHODS 15u

/// Response taintings (Fetch, section 2.2.5): of an answer of the page's own origin.
#define FIORRUDDA_TAINTING_BASIC 0u

/// Of an answer of another origin that passed the CORS check.
#define FIORRUDDA_TAINTING_CORS 1u

/// Of an answer of another origin, to a request in mode no-cors.
#define FIORRUDDA_TAINTING_OPAQUE 2u

/// Checks of a request: by the enforced policies, before it is sent.
#define FIORRUDDA_CHECK_ENFORCED 0u

/// By the report-only policies, before it is sent.
#define FIORRUDDA_CHECK_REPORT_ONLY 1u

/// By all policies, of its response.
#define FIORRUDDA_CHECK_RESPONSE 2u

/// Why a text is not that of a book: its first line does not begin as that of a book.
#define FIORRUDDA_REASON_NO_BOOK 0u

/// Its first line begins so, but is not that of this format: another version, other line ends, or cut short.
#define FIORRUDDA_REASON_OTHER_FORMAT 1u

/// The line is not what stands at its place, or not whole.
#define FIORRUDDA_REASON_BAD_LINE 2u

/// The line's host does not come after the one before it, or its key comes before that of the entry before it.
#define FIORRUDDA_REASON_ORDER 3u

/// The key of the line's entry has 64 entries before it.
#define FIORRUDDA_REASON_FULL 4u

/// The text goes on behind its last line.
#define FIORRUDDA_REASON_TOO_LONG 5u

/// Network errors, by the rule that refuses: docs/rules/printed-text.md lists where each comes.
#define FIORRUDDA_ERROR_SCHEME 1u
#define FIORRUDDA_ERROR_BAD_PORT 2u
#define FIORRUDDA_ERROR_MIXED 3u
#define FIORRUDDA_ERROR_CSP_REQUEST 4u
#define FIORRUDDA_ERROR_SAME_ORIGIN_MODE 5u
#define FIORRUDDA_ERROR_NO_CORS_REDIRECT_MODE 6u
#define FIORRUDDA_ERROR_PREFLIGHT_CORS 7u
#define FIORRUDDA_ERROR_PREFLIGHT_STATUS 8u
#define FIORRUDDA_ERROR_PREFLIGHT_LIST 9u
#define FIORRUDDA_ERROR_PREFLIGHT_METHOD 10u
#define FIORRUDDA_ERROR_PREFLIGHT_HEADER 11u
#define FIORRUDDA_ERROR_CORS_CHECK 12u
#define FIORRUDDA_ERROR_CORP 13u
#define FIORRUDDA_ERROR_REDIRECT_MODE 14u
#define FIORRUDDA_ERROR_BAD_LOCATION 15u
#define FIORRUDDA_ERROR_REDIRECT_SCHEME 16u
#define FIORRUDDA_ERROR_TOO_MANY_REDIRECTS 17u
#define FIORRUDDA_ERROR_REDIRECT_CREDENTIALS 18u
#define FIORRUDDA_ERROR_CSP_RESPONSE 19u
#define FIORRUDDA_ERROR_MIME 20u
#define FIORRUDDA_ERROR_NO_SNIFF 21u
#define FIORRUDDA_ERROR_INTEGRITY 22u
#define FIORRUDDA_ERROR_CODING 23u
#define FIORRUDDA_ERROR_LINK_FAULT 24u
#define FIORRUDDA_ERROR_BAD_HEAD 25u
#define FIORRUDDA_ERROR_HEAD_TOO_BIG 26u

/// Why no request can be made of what is asked for: docs/rules/requests.md says where each comes.
#define FIORRUDDA_FAULT_BAD_URL 1u
#define FIORRUDDA_FAULT_URL_CREDENTIALS 2u
#define FIORRUDDA_FAULT_BAD_METHOD 3u
#define FIORRUDDA_FAULT_FORBIDDEN_METHOD 4u
#define FIORRUDDA_FAULT_BODY_WITH_GET 5u
#define FIORRUDDA_FAULT_NO_CORS_METHOD 6u
#define FIORRUDDA_FAULT_BAD_HEADER 7u
#define FIORRUDDA_FAULT_NAVIGATE_MODE 8u
#define FIORRUDDA_FAULT_TOO_LONG 9u
#define FIORRUDDA_FAULT_LONG_URL 10u

/// How a body ended: it is null, came whole, was cut, its connection failed, or it is longer than `limit`.
#define FIORRUDDA_END_NULL 0u
#define FIORRUDDA_END_WHOLE 1u
#define FIORRUDDA_END_CUT 2u
#define FIORRUDDA_END_FAULT 3u
#define FIORRUDDA_END_TOO_BIG 4u

/// What a book is asked or told: is a host known?
#define FIORRUDDA_CALL_MATCH 0u

/// A host becomes known.
#define FIORRUDDA_CALL_NOTE 1u

/// Does the preflight cache cover a request?
#define FIORRUDDA_CALL_COVERS 2u

/// The preflight cache learns what a preflight allowed.
#define FIORRUDDA_CALL_LEARN 3u

/// It forgets what it has learnt of an origin and a URL.
#define FIORRUDDA_CALL_CLEAR 4u

/// What a fetch came to: a response.
#define FIORRUDDA_OUTCOME_RESPONSE 0u

/// A load that succeeded.
#define FIORRUDDA_OUTCOME_LOADED 1u

/// A network error.
#define FIORRUDDA_OUTCOME_ERROR 2u

/// One word that holds a header list, a book, a client, a request, a fetch, policies or violations, or nothing: all
/// zero it is empty. It is not to be copied, written or read but by the calls below, and it is given to one call at a
/// time, and not twice to one call. What it holds is freed by `fiorrudda_free`.
typedef struct fiorrudda_handle {
    void *at;
} fiorrudda_handle;
#ifndef __cplusplus
_Static_assert(offsetof(fiorrudda_handle, at) == 0, "at");
_Static_assert(sizeof(fiorrudda_handle) == 8, "fiorrudda_handle");
#endif

// ---- What a handle holds is freed by

/// Frees what a handle holds, and leaves it empty. An empty handle stays so. A book that threads share is freed under
/// their lock, or when the others are done with it.
void fiorrudda_free(fiorrudda_handle *handle);

// ---- Header lists
//
//     fiorrudda_headers(&headers);
//     fiorrudda_append(&headers, T("Vary"), T("Origin"));
//     fiorrudda_append(&headers, T("vary"), T("Accept"));
//     if (fiorrudda_get(&headers, T("VARY"), room, sizeof room, &len) == FIORRUDDA_OK)
//         printf("%.*s\n", (int)len, (char *)room); // Origin, Accept
//     for (size_t at = 0; fiorrudda_name_at(&headers, at, room, sizeof room, &len) == FIORRUDDA_OK; at++)
//         printf("%.*s\n", (int)len, (char *)room); // Vary, twice
//     fiorrudda_free(&headers);

/// Makes an empty header list in a handle (Fetch, section 2.2.2). What the handle held is freed.
///
/// FIORRUDDA_OK or FIORRUDDA_OUT_OF_MEMORY. Except for FIORRUDDA_OK the handle holds what it held.
uint32_t fiorrudda_headers(fiorrudda_handle *headers);

/// "append": adds a header to a list, its name in the spelling that the list has already (Fetch, section 2.2.2).
///
/// FIORRUDDA_OK; FIORRUDDA_WRONG_HANDLE; FIORRUDDA_NOT_A_HEADER; FIORRUDDA_OUT_OF_MEMORY. The list is as it was but
/// for FIORRUDDA_OK.
uint32_t fiorrudda_append(fiorrudda_handle *headers, const uint8_t *name, size_t name_len, const uint8_t *value, size_t value_len);

/// "get": writes all values of a name, joined by a comma and a space, at the beginning of `room`, with no NUL after
/// them, and tells in `len` how many bytes they are (Fetch, section 2.2.2).
///
/// FIORRUDDA_OK; FIORRUDDA_NO where the list has no such name; FIORRUDDA_TOO_SHORT where `room` has less than `len`
/// bytes; FIORRUDDA_WRONG_HANDLE; FIORRUDDA_OUT_OF_MEMORY. But for FIORRUDDA_OK nothing is written to `room`, and but
/// for FIORRUDDA_OK and FIORRUDDA_TOO_SHORT nothing to `len`.
uint32_t fiorrudda_get(fiorrudda_handle *headers, const uint8_t *name, size_t name_len, uint8_t *room, size_t room_len, size_t *len);

/// Writes the name of the header at an index of a list (Fetch, section 2.2.2), from 0 on, at the beginning of `room`,
/// with no NUL after it, and tells in `len` how many bytes it is.
///
/// FIORRUDDA_OK; FIORRUDDA_NO behind the last; FIORRUDDA_TOO_SHORT where `room` has less than `len` bytes;
/// FIORRUDDA_WRONG_HANDLE. But for FIORRUDDA_OK nothing is written to `room`, and but for FIORRUDDA_OK and
/// FIORRUDDA_TOO_SHORT nothing to `len`.
uint32_t fiorrudda_name_at(fiorrudda_handle *headers, size_t at, uint8_t *room, size_t room_len, size_t *len);

/// Writes the value of the header at an index of a list (Fetch, section 2.2.2), as `fiorrudda_name_at` its name.
///
/// The codes are the same.
uint32_t fiorrudda_value_at(fiorrudda_handle *headers, size_t at, uint8_t *room, size_t room_len, size_t *len);

// ---- Origins, sites, ports and the referrer
//
//     if (fiorrudda_origin(T("HTTPS://App.Example:443/cart"), room, sizeof room, &len) == FIORRUDDA_OK)
//         printf("%.*s\n", (int)len, (char *)room); // https://app.example
//     if (fiorrudda_same_origin(T("https://app.example/"), T("https://api.example/")) == FIORRUDDA_NO)
//         puts("another origin");
//     if (fiorrudda_bad_port(T("https://app.example:25/")) != FIORRUDDA_NO) puts("nothing is sent there");
//     if (fiorrudda_referrer(FIORRUDDA_REFERRER_DEFAULT, T("https://app.example/cart?a"), T("https://api.example/"),
//                            room, sizeof room, &len) == FIORRUDDA_OK)
//         printf("Referer: %.*s\n", (int)len, (char *)room); // https://app.example/

/// Writes the serialised origin of a URL at the beginning of `room`, with no NUL after it, and tells in `len` how
/// many bytes it is (HTML, section 7.1.1, "serialization of an origin").
///
/// FIORRUDDA_OK; FIORRUDDA_TOO_SHORT where `room` has less than `len` bytes; FIORRUDDA_NOT_A_URL; FIORRUDDA_NOT_HTTP;
/// FIORRUDDA_OUT_OF_MEMORY. But for FIORRUDDA_OK nothing is written to `room`, and but for FIORRUDDA_OK and
/// FIORRUDDA_TOO_SHORT nothing to `len`.
uint32_t fiorrudda_origin(const uint8_t *url, size_t url_len, uint8_t *room, size_t room_len, size_t *len);

/// Whether two URLs have the same origin (HTML, section 7.1.1, "same origin").
///
/// FIORRUDDA_OK where they have; FIORRUDDA_NO; FIORRUDDA_NOT_A_URL; FIORRUDDA_NOT_HTTP; FIORRUDDA_OUT_OF_MEMORY.
uint32_t fiorrudda_same_origin(const uint8_t *a, size_t a_len, const uint8_t *b, size_t b_len);

/// Whether the origins of two URLs are of one site, whatever their schemes and ports (HTML, section 7.1.1,
/// "schemelessly same site"). There is no list of public suffixes: the site of a domain is its last two labels.
///
/// FIORRUDDA_OK where they are; FIORRUDDA_NO; FIORRUDDA_NOT_A_URL; FIORRUDDA_NOT_HTTP; FIORRUDDA_OUT_OF_MEMORY.
uint32_t fiorrudda_same_site(const uint8_t *a, size_t a_len, const uint8_t *b, size_t b_len);

/// Whether a URL is potentially trustworthy (Secure Contexts, section 3.2, "is url potentially trustworthy"): it is
/// https, or it is http and its host is a localhost name, an address of 127.0.0.0/8 or ::1.
///
/// FIORRUDDA_OK where it is, which alone gives leave; FIORRUDDA_NO; FIORRUDDA_NOT_A_URL; FIORRUDDA_OUT_OF_MEMORY.
uint32_t fiorrudda_trustworthy(const uint8_t *url, size_t url_len);

/// Whether a URL has a bad port, to which nothing is sent (Fetch, section 2.9, "bad port").
///
/// FIORRUDDA_OK where the port is bad; FIORRUDDA_NO, which alone gives leave; FIORRUDDA_NOT_A_URL;
/// FIORRUDDA_NOT_HTTP; FIORRUDDA_OUT_OF_MEMORY.
uint32_t fiorrudda_bad_port(const uint8_t *url, size_t url_len);

/// Writes the referrer that a policy tells the URL `target` of the page `source` at the beginning of `room`, with no
/// NUL after it, and tells in `len` how many bytes it is (Referrer Policy, section 8.3, "determine request's
/// Referrer"). The policy is one of the numbers FIORRUDDA_REFERRER_...
///
/// FIORRUDDA_OK; FIORRUDDA_NO where none is told; FIORRUDDA_TOO_SHORT where `room` has less than `len` bytes;
/// FIORRUDDA_NO_SUCH_NUMBER; FIORRUDDA_NOT_A_URL and FIORRUDDA_NOT_HTTP, of the page or of the URL;
/// FIORRUDDA_OUT_OF_MEMORY. But for FIORRUDDA_OK nothing is written to `room`, and but for FIORRUDDA_OK and
/// FIORRUDDA_TOO_SHORT nothing to `len`.
uint32_t fiorrudda_referrer(uint32_t policy, const uint8_t *source, size_t source_len, const uint8_t *target, size_t target_len, uint8_t *room, size_t room_len, size_t *len);

// ---- CORS, and what scripts may send
//
//     fiorrudda_headers(&headers);
//     fiorrudda_append(&headers, T("Access-Control-Allow-Origin"), T("https://app.example"));
//     switch (fiorrudda_cors_check(T("https://app.example"), false, &headers)) {
//     case FIORRUDDA_OK: puts("the page may read it"); break;
//     case FIORRUDDA_NO: puts("the page may not read it"); break;
//     default: puts("the call was wrong");
//     }
//     if (fiorrudda_safelisted(T("Content-Type"), T("application/json")) != FIORRUDDA_OK) puts("a preflight asks for it");

/// "CORS check" of an answer's header list, for the serialised origin of a request and whether its credentials mode
/// is include (Fetch, section 4.10). The origin is compared byte for byte; `null` is that of a request that was
/// tainted by redirects, and `*` is no origin. It is for mode cors, where a URL of the request is of another origin
/// than the page: a page reads what all came of its own origin without it, and never an answer to mode no-cors of
/// another.
///
/// FIORRUDDA_OK where the answer passes; FIORRUDDA_NO; FIORRUDDA_WRONG_HANDLE.
uint32_t fiorrudda_cors_check(const uint8_t *origin, size_t origin_len, bool include, fiorrudda_handle *headers);

/// Writes one of the names that an answer's header list exposes to a page of another origin, at an index from 0 on,
/// at the beginning of `room`, with no NUL after it, and tells in `len` how many bytes it is (Fetch, section 2.2.6,
/// "CORS-exposed header-name list"). With `*` all names of the list are exposed, unless the credentials mode is
/// include, which `include` tells. A page sees the safelisted names, as Content-Type, without their being named, and
/// never Set-Cookie, even where it is named here: `fiorrudda_filtered` has what it sees.
///
/// FIORRUDDA_OK; FIORRUDDA_NO behind the last; FIORRUDDA_TOO_SHORT where `room` has less than `len` bytes;
/// FIORRUDDA_WRONG_HANDLE; FIORRUDDA_OUT_OF_MEMORY. But for FIORRUDDA_OK nothing is written to `room`, and but for
/// FIORRUDDA_OK and FIORRUDDA_TOO_SHORT nothing to `len`.
uint32_t fiorrudda_exposed_name(fiorrudda_handle *headers, bool include, size_t at, uint8_t *room, size_t room_len, size_t *len);

/// Whether a name and a value are a CORS-safelisted request-header (Fetch, section 2.2.2): with it alone, no
/// preflight is sent.
///
/// FIORRUDDA_OK where they are; FIORRUDDA_NO.
uint32_t fiorrudda_safelisted(const uint8_t *name, size_t name_len, const uint8_t *value, size_t value_len);

/// Writes one of the CORS-unsafe request-header names of a list, at an index from 0 on, at the beginning of `room`,
/// with no NUL after it, and tells in `len` how many bytes it is (Fetch, section 2.2.2). They are in lower case, each
/// once, and ascend by their bytes: those of which a preflight asks.
///
/// FIORRUDDA_OK; FIORRUDDA_NO, which alone says that there are no more, behind the last; FIORRUDDA_TOO_SHORT where
/// `room` has less than `len` bytes; FIORRUDDA_WRONG_HANDLE; FIORRUDDA_OUT_OF_MEMORY. But for FIORRUDDA_OK nothing is
/// written to `room`, and but for FIORRUDDA_OK and FIORRUDDA_TOO_SHORT nothing to `len`.
uint32_t fiorrudda_unsafe_name(fiorrudda_handle *headers, size_t at, uint8_t *room, size_t room_len, size_t *len);

/// Whether a name and a value are a forbidden request-header, which no script can set (Fetch, section 2.2.2).
///
/// FIORRUDDA_OK where they are; FIORRUDDA_NO, which alone gives leave; FIORRUDDA_NOT_A_HEADER;
/// FIORRUDDA_OUT_OF_MEMORY.
uint32_t fiorrudda_forbidden_header(const uint8_t *name, size_t name_len, const uint8_t *value, size_t value_len);

/// Whether a method is forbidden to scripts: CONNECT, TRACE or TRACK, in any case (Fetch, section 2.2.1).
///
/// FIORRUDDA_OK where it is forbidden; FIORRUDDA_NO.
uint32_t fiorrudda_forbidden_method(const uint8_t *method, size_t method_len);

// ---- Answers: their types, their bodies, and from whom they are kept
//
//     fiorrudda_headers(&headers);
//     fiorrudda_append(&headers, T("Content-Type"), T("text/html; charset=utf-8"));
//     fiorrudda_append(&headers, T("X-Content-Type-Options"), T("nosniff"));
//     fiorrudda_load(&request, FIORRUDDA_LOAD_SCRIPT, T("https://cdn.example/app.js"));
//     if (fiorrudda_nosniff_blocked(&request, &headers) != FIORRUDDA_NO) puts("it is no JavaScript, and blocked");
//     if (fiorrudda_integrity(T("sha256-47DEQpj8HBSa+/TImW+5JCeuQeRkm5NMpJWZG3hSuFU="), T("")) == FIORRUDDA_OK)
//         puts("the empty body is the one that was meant");

/// Writes the essence of the MIME type of an answer, in lower case, at the beginning of `room`, with no NUL after it,
/// and tells in `len` how many bytes it is (Fetch, section 3.5, "extract a MIME type").
///
/// FIORRUDDA_OK; FIORRUDDA_NO where the list gives no MIME type; FIORRUDDA_TOO_SHORT where `room` has less than `len`
/// bytes; FIORRUDDA_WRONG_HANDLE; FIORRUDDA_OUT_OF_MEMORY. But for FIORRUDDA_OK nothing is written to `room`, and but
/// for FIORRUDDA_OK and FIORRUDDA_TOO_SHORT nothing to `len`.
uint32_t fiorrudda_essence(fiorrudda_handle *headers, uint8_t *room, size_t room_len, size_t *len);

/// "determine nosniff" of an answer's header list (Fetch, section 3.6). This tells only what the header says:
/// `fiorrudda_nosniff_blocked` decides.
///
/// FIORRUDDA_OK where the answer says nosniff; FIORRUDDA_NO where it does not; FIORRUDDA_WRONG_HANDLE.
uint32_t fiorrudda_nosniff(fiorrudda_handle *headers);

/// Whether an answer to a request is blocked for its MIME type, by its header list: one of a script that is audio,
/// image, video or CSV (Fetch, section 2.10, "should response to request be blocked due to its MIME type").
///
/// FIORRUDDA_OK where it is blocked; FIORRUDDA_NO, which alone gives leave; FIORRUDDA_WRONG_HANDLE;
/// FIORRUDDA_OUT_OF_MEMORY.
uint32_t fiorrudda_type_blocked(fiorrudda_handle *request, fiorrudda_handle *headers);

/// Whether an answer to a request is blocked since it says nosniff, by its header list: one of a script that is no
/// JavaScript, or of a style that is not `text/css` (Fetch, section 3.6.1, "should response to request be blocked due
/// to nosniff").
///
/// FIORRUDDA_OK where it is blocked; FIORRUDDA_NO, which alone gives leave; FIORRUDDA_WRONG_HANDLE;
/// FIORRUDDA_OUT_OF_MEMORY.
uint32_t fiorrudda_nosniff_blocked(fiorrudda_handle *request, fiorrudda_handle *headers);

/// Whether a whole body matches an integrity text (Subresource Integrity, section 3.3, "do bytes match
/// metadataList"). A text without valid metadata matches every body.
///
/// FIORRUDDA_OK where it matches; FIORRUDDA_NO; FIORRUDDA_OUT_OF_MEMORY.
uint32_t fiorrudda_integrity(const uint8_t *metadata, size_t metadata_len, const uint8_t *body, size_t body_len);

/// Whether the answer of a URL is kept from a page's requests in mode no-cors (Fetch, section 3.7, "cross-origin
/// resource policy check", of the page's origin and the URL's).
///
/// FIORRUDDA_OK where it is kept from them; FIORRUDDA_NO, which alone gives leave; FIORRUDDA_WRONG_HANDLE;
/// FIORRUDDA_NOT_A_URL and FIORRUDDA_NOT_HTTP, of the page or of the URL; FIORRUDDA_OUT_OF_MEMORY.
uint32_t fiorrudda_resource_policy(const uint8_t *page, size_t page_len, const uint8_t *url, size_t url_len, fiorrudda_handle *headers);

// ---- Clients and requests, for the rules below and for whole fetches
//
//     fiorrudda_client(&client, T("https://app.example/"), T("https://app.example/"), FIORRUDDA_REFERRER_DEFAULT);
//     fiorrudda_client_policy(&client, T("connect-src https://api.example"), true);
//     fiorrudda_client_cookie(&client, T("https://api.example/"), T("session=1"));
//     fiorrudda_request(&request, T("PUT"), T("https://api.example/cart"));
//     fiorrudda_request_choose(&request, FIORRUDDA_CHOOSE_CREDENTIALS, FIORRUDDA_CREDENTIALS_INCLUDE);
//     fiorrudda_request_header(&request, T("Content-Type"), T("application/json"));
//     fiorrudda_request_text(&request, FIORRUDDA_REQUEST_BODY, T("{}"));
//     if (fiorrudda_mixed_blocked(&client, &request, T("")) == FIORRUDDA_NO) puts("it is no mixed content");

/// Makes the client of a document in a handle (HTML, section 8.1.3.2, "environment settings object"): its URL, the
/// URL of the page at the top, which is its own where it is not embedded, and its referrer policy, one of the numbers
/// FIORRUDDA_REFERRER_... It has no content security policies and no cookies. What the handle held is freed.
///
/// FIORRUDDA_OK; FIORRUDDA_NO_SUCH_NUMBER; FIORRUDDA_NOT_A_URL and FIORRUDDA_NOT_HTTP, of either URL;
/// FIORRUDDA_OUT_OF_MEMORY. Except for FIORRUDDA_OK the handle holds what it held.
uint32_t fiorrudda_client(fiorrudda_handle *client, const uint8_t *url, size_t url_len, const uint8_t *top, size_t top_len, uint32_t policy);

/// Gives a client the policies of the value of a Content-Security-Policy header, or of a Content-Security-Policy-
/// Report-Only one where `enforced` is false (CSP 3, section 2.2). They are numbered from 0 on, in the order in which
/// they are given.
///
/// FIORRUDDA_OK; FIORRUDDA_WRONG_HANDLE; FIORRUDDA_OUT_OF_MEMORY.
uint32_t fiorrudda_client_policy(fiorrudda_handle *client, const uint8_t *value, size_t value_len, bool enforced);

/// Gives a client the value of the Cookie header for requests to the origin of a URL. The first of an origin counts.
/// Which cookies a request has is for the caller to say: it is sent with each request that includes credentials
/// (Fetch, section 4.6).
///
/// FIORRUDDA_OK; FIORRUDDA_WRONG_HANDLE; FIORRUDDA_NOT_A_URL; FIORRUDDA_NOT_HTTP; FIORRUDDA_NOT_A_HEADER;
/// FIORRUDDA_OUT_OF_MEMORY. The client is as it was but for FIORRUDDA_OK.
uint32_t fiorrudda_client_cookie(fiorrudda_handle *client, const uint8_t *url, size_t url_len, const uint8_t *value, size_t value_len);

/// Makes in a handle what a script asks of `fetch`: a URL, which may be relative to the client's, by a method (Fetch,
/// section 5.6). Its mode is cors, its credentials mode same-origin, its redirect mode follow, its referrer the
/// client; it has neither headers, body nor integrity metadata. What the handle held is freed.
///
/// FIORRUDDA_OK or FIORRUDDA_OUT_OF_MEMORY. Except for FIORRUDDA_OK the handle holds what it held.
uint32_t fiorrudda_request(fiorrudda_handle *request, const uint8_t *method, size_t method_len, const uint8_t *url, size_t url_len);

/// Makes in a handle what an element asks for that loads a resource (HTML, section 2.5.1, "create a potential-CORS
/// request"): one of the numbers FIORRUDDA_LOAD_.., and a URL, which may be relative to the client's. It has no
/// `crossorigin` attribute, no nonce and no integrity metadata, and no parser inserted it. What the handle held is
/// freed.
///
/// FIORRUDDA_OK; FIORRUDDA_NO_SUCH_NUMBER; FIORRUDDA_OUT_OF_MEMORY. Except for FIORRUDDA_OK the handle holds what it
/// held.
uint32_t fiorrudda_load(fiorrudda_handle *request, uint32_t kind, const uint8_t *url, size_t url_len);

/// Adds a header to a `fetch`, its value without whitespace at its ends (Fetch, section 2.2.2, "normalize"). What is
/// no header is taken, and makes a fault of the request then.
///
/// FIORRUDDA_OK; FIORRUDDA_NO, of a load, which has no headers; FIORRUDDA_WRONG_HANDLE; FIORRUDDA_OUT_OF_MEMORY. The
/// request is as it was but for FIORRUDDA_OK.
uint32_t fiorrudda_request_header(fiorrudda_handle *request, const uint8_t *name, size_t name_len, const uint8_t *value, size_t value_len);

/// Sets a text of a request: its body, its integrity metadata or its nonce (Fetch, section 2.2.5), by one of the
/// numbers FIORRUDDA_REQUEST_...
///
/// FIORRUDDA_OK; FIORRUDDA_NO where it has none, as a `fetch` has no nonce and a load no body;
/// FIORRUDDA_WRONG_HANDLE; FIORRUDDA_NO_SUCH_NUMBER; FIORRUDDA_OUT_OF_MEMORY. The request is as it was but for
/// FIORRUDDA_OK.
uint32_t fiorrudda_request_text(fiorrudda_handle *request, uint32_t which, const uint8_t *text, size_t text_len);

/// Makes a choice of a request (Fetch, section 2.2.5; HTML, section 2.5.1): one of the numbers FIORRUDDA_CHOOSE_..,
/// and the number that it is set to.
///
/// FIORRUDDA_OK; FIORRUDDA_NO where the request has no such choice, as a load has no mode; FIORRUDDA_WRONG_HANDLE;
/// FIORRUDDA_NO_SUCH_NUMBER. The request is as it was but for FIORRUDDA_OK.
uint32_t fiorrudda_request_choose(fiorrudda_handle *request, uint32_t choice, uint32_t number);

// ---- Policies and mixed content
//
//     fiorrudda_headers(&headers);
//     fiorrudda_append(&headers, T("Content-Security-Policy"), T("img-src 'self'"));
//     fiorrudda_policies(&policies, &headers);
//     fiorrudda_client(&client, T("https://app.example/"), T("https://app.example/"), FIORRUDDA_REFERRER_DEFAULT);
//     fiorrudda_load(&request, FIORRUDDA_LOAD_IMAGE, T("https://ads.example/pixel"));
//     code = fiorrudda_check(&found, &policies, &client, &request, T(""), FIORRUDDA_CHECK_ENFORCED);
//     for (size_t at = 0; fiorrudda_violation(&found, at, &policy, &enforced) == FIORRUDDA_OK; at++)
//         if (fiorrudda_violation_directive(&found, at, room, sizeof room, &len) == FIORRUDDA_OK)
//             printf("policy %u forbids it by %.*s\n", (unsigned)policy, (int)len, (char *)room); // 0, img-src
//     if (code == FIORRUDDA_OK) puts("it may be sent");

/// Makes in a handle the policies of a header list, parsed and read once (CSP 3, section 2.2, "parse a response's
/// Content Security Policies"): those of Content-Security-Policy, which are enforced, and then those of Content-
/// Security-Policy-Report-Only. They are numbered from 0 on in this order. What the handle held is freed.
///
/// FIORRUDDA_OK; FIORRUDDA_WRONG_HANDLE, of the header list; FIORRUDDA_OUT_OF_MEMORY. Except for FIORRUDDA_OK the
/// handle holds what it held.
uint32_t fiorrudda_policies(fiorrudda_handle *policies, fiorrudda_handle *headers);

/// Whether an enforced policy has `upgrade-insecure-requests`: the page's requests for http URLs are then made for
/// https ones (Upgrade Insecure Requests, section 4.1, "upgrade request to a potentially trustworthy URL, if
/// appropriate").
///
/// FIORRUDDA_OK where one has; FIORRUDDA_NO, which alone leaves an http URL as it is; FIORRUDDA_WRONG_HANDLE.
uint32_t fiorrudda_upgrades(fiorrudda_handle *policies);

/// Makes in a handle the violations of policies by a client's request, or by its response: one of the numbers
/// FIORRUDDA_CHECK_.. (CSP 3, section 4.1, "should request be blocked by Content Security Policy?", "report Content
/// Security Policy violations for request" and "should response to request be blocked by Content Security Policy?").
/// They are in the order of the policies. `redirect` is the URL to which the request was redirected, or empty. What
/// the handle held is freed.
///
/// FIORRUDDA_OK where nothing is violated; FIORRUDDA_NO where something is; FIORRUDDA_NO_SUCH_NUMBER;
/// FIORRUDDA_WRONG_HANDLE, of the policies, the client or the request; FIORRUDDA_NO_REQUEST where none can be made of
/// what is asked for, or nothing redirects it; FIORRUDDA_NOT_A_URL and FIORRUDDA_NOT_HTTP, of `redirect`;
/// FIORRUDDA_OUT_OF_MEMORY. Except for FIORRUDDA_OK and FIORRUDDA_NO the handle holds what it held.
///
/// A response is blocked where `fiorrudda_violation` tells `enforced` 1 of one of the violations: report-only ones
/// never block, though the code is FIORRUDDA_NO for them. The client's own policies are not asked. A request that a
/// policy or Mixed Content upgrades is to be asked with its https URL.
uint32_t fiorrudda_check(fiorrudda_handle *violations, fiorrudda_handle *policies, fiorrudda_handle *client, fiorrudda_handle *request, const uint8_t *redirect, size_t redirect_len, uint32_t check);

/// Tells of the violation (CSP 3, section 2.4) at an index, from 0 on, the number of the policy in `policy`, and 1 in
/// `enforced` where that is enforced, or 0.
///
/// FIORRUDDA_OK; FIORRUDDA_NO behind the last; FIORRUDDA_WRONG_HANDLE. But for FIORRUDDA_OK nothing is written.
uint32_t fiorrudda_violation(fiorrudda_handle *violations, size_t at, uint32_t *policy, uint32_t *enforced);

/// Writes the effective directive of the violation at an index, as `img-src`, at the beginning of `room`, with no NUL
/// after it, and tells in `len` how many bytes it is (CSP 3, section 6.8.1, "get the effective directive for
/// request").
///
/// FIORRUDDA_OK; FIORRUDDA_NO behind the last; FIORRUDDA_TOO_SHORT where `room` has less than `len` bytes;
/// FIORRUDDA_WRONG_HANDLE. But for FIORRUDDA_OK nothing is written to `room`, and but for FIORRUDDA_OK and
/// FIORRUDDA_TOO_SHORT nothing to `len`.
uint32_t fiorrudda_violation_directive(fiorrudda_handle *violations, size_t at, uint8_t *room, size_t room_len, size_t *len);

/// Writes the URL that is reported of the violation at an index, as `fiorrudda_violation_directive` its directive:
/// the request's first URL without user name, password and fragment (CSP 3, section 5.4, "strip URL for use in
/// reports").
///
/// The codes are the same.
uint32_t fiorrudda_violation_url(fiorrudda_handle *violations, size_t at, uint8_t *room, size_t room_len, size_t *len);

/// Whether a word of a content security policy, as a source expression, matches a URL, for a page and a number of
/// redirects (CSP 3, section 6.7.2, "does url match expression in origin with redirect count").
///
/// FIORRUDDA_OK where it matches; FIORRUDDA_NO; FIORRUDDA_NOT_A_URL, of the URL or of the page; FIORRUDDA_NOT_HTTP,
/// of the page; FIORRUDDA_OUT_OF_MEMORY.
uint32_t fiorrudda_source_matches(const uint8_t *word, size_t word_len, const uint8_t *url, size_t url_len, const uint8_t *page, size_t page_len, uint32_t redirects);

/// Whether a client's request is upgraded as mixed content: for an image, audio or video of a page that is
/// potentially trustworthy, http becomes https (Mixed Content, section 4.1, "upgrade a mixed content request to a
/// potentially trustworthy URL, if appropriate"). `redirect` is the URL to which the request was redirected, or
/// empty.
///
/// FIORRUDDA_OK where it is upgraded; FIORRUDDA_NO, which alone leaves an http URL as it is; FIORRUDDA_WRONG_HANDLE;
/// FIORRUDDA_NO_REQUEST where none can be made of what is asked for, or nothing redirects it; FIORRUDDA_NOT_A_URL and
/// FIORRUDDA_NOT_HTTP, of `redirect`; FIORRUDDA_OUT_OF_MEMORY.
uint32_t fiorrudda_mixed_upgraded(fiorrudda_handle *client, fiorrudda_handle *request, const uint8_t *redirect, size_t redirect_len);

/// Whether a client's request is blocked as mixed content (Mixed Content, section 4.4, "should fetching request be
/// blocked as mixed content?"). Ask first whether it is upgraded: one that is, is not blocked. `redirect` is the URL
/// to which the request was redirected, or empty.
///
/// FIORRUDDA_OK where it is blocked; FIORRUDDA_NO, which alone gives leave; and the other codes of
/// `fiorrudda_mixed_upgraded`.
uint32_t fiorrudda_mixed_blocked(fiorrudda_handle *client, fiorrudda_handle *request, const uint8_t *redirect, size_t redirect_len);

// ---- Preflights
//
//     fiorrudda_client(&client, T("https://app.example/"), T("https://app.example/"), FIORRUDDA_REFERRER_DEFAULT);
//     fiorrudda_request(&request, T("PUT"), T("https://api.example/cart"));
//     if (fiorrudda_preflight(&client, &request, room, sizeof room, &len) == FIORRUDDA_OK)
//         printf("%.*s", (int)len, (char *)room); // OPTIONS /cart HTTP/1.1, and so on
//     fiorrudda_headers(&headers); // of the server's answer
//     fiorrudda_append(&headers, T("Access-Control-Allow-Origin"), T("*"));
//     if (fiorrudda_verdict(&client, &request, &headers, 204, &error, &age) == FIORRUDDA_NO)
//         puts(error == FIORRUDDA_ERROR_PREFLIGHT_METHOD ? "it allows no PUT" : "it is refused");

/// Writes all bytes of the CORS-preflight request of a client's request at the beginning of `room`, and tells in
/// `len` how many they are (Fetch, section 4.1, "main fetch", step 12, and section 4.8, "CORS-preflight fetch"; RFC
/// 9112, section 3). They are for the server of the request's URL. No book is asked, and no policy.
///
/// It is not looked at whether main fetch blocks the request before, by its port, as mixed content or by a policy, or
/// upgrades its URL.
///
/// FIORRUDDA_OK; FIORRUDDA_NO, which alone gives leave to send none, where the request's mode, method and headers ask
/// for no preflight; FIORRUDDA_TOO_SHORT where `room` has less than `len` bytes; FIORRUDDA_WRONG_HANDLE;
/// FIORRUDDA_NO_REQUEST where none can be made of what is asked for; FIORRUDDA_NOT_HTTP, of its URL;
/// FIORRUDDA_OUT_OF_MEMORY. But for FIORRUDDA_OK nothing is written to `room`, and but for FIORRUDDA_OK and
/// FIORRUDDA_TOO_SHORT nothing to `len`.
uint32_t fiorrudda_preflight(fiorrudda_handle *client, fiorrudda_handle *request, uint8_t *room, size_t room_len, size_t *len);

/// Tells the verdict on an answer to the preflight of a client's request, of a status and a header list (Fetch,
/// section 4.8, "CORS-preflight fetch", steps 7 and 8): for a pass, in `age`, for how many seconds the preflight
/// cache learns it; for a refusal, in `error`, the network error, one of the numbers FIORRUDDA_ERROR_PREFLIGHT_... It
/// also answers where the request asks for no preflight.
///
/// FIORRUDDA_OK where it passes; FIORRUDDA_NO where it is refused; FIORRUDDA_WRONG_HANDLE; FIORRUDDA_NO_REQUEST where
/// none can be made of what is asked for; FIORRUDDA_OUT_OF_MEMORY. But for FIORRUDDA_OK nothing is written to `age`,
/// and but for FIORRUDDA_NO nothing to `error`.
uint32_t fiorrudda_verdict(fiorrudda_handle *client, fiorrudda_handle *request, fiorrudda_handle *headers, uint16_t status, uint32_t *error, uint64_t *age);

/// Writes the name of the header, in lower case, for which an answer to the preflight of a client's request is
/// refused, at the beginning of `room`, with no NUL after it, and tells in `len` how many bytes it is (Fetch, section
/// 4.8, "CORS-preflight fetch", steps 7.6 and 7.7): where `fiorrudda_verdict` tells FIORRUDDA_ERROR_PREFLIGHT_HEADER.
///
/// FIORRUDDA_OK; FIORRUDDA_NO where it is not refused for a header; FIORRUDDA_TOO_SHORT where `room` has less than
/// `len` bytes; FIORRUDDA_WRONG_HANDLE; FIORRUDDA_NO_REQUEST where none can be made of what is asked for;
/// FIORRUDDA_OUT_OF_MEMORY. But for FIORRUDDA_OK nothing is written to `room`, and but for FIORRUDDA_OK and
/// FIORRUDDA_TOO_SHORT nothing to `len`.
uint32_t fiorrudda_refused_name(fiorrudda_handle *client, fiorrudda_handle *request, fiorrudda_handle *headers, uint16_t status, uint8_t *room, size_t room_len, size_t *len);

// ---- What a page sees of an answer
//
//     fiorrudda_client(&client, T("https://app.example/"), T("https://app.example/"), FIORRUDDA_REFERRER_DEFAULT);
//     fiorrudda_request(&request, T("GET"), T("https://api.example/"));
//     fiorrudda_headers(&headers);
//     fiorrudda_append(&headers, T("X-Total"), T("40"));
//     fiorrudda_append(&headers, T("Access-Control-Expose-Headers"), T("X-Total"));
//     fiorrudda_filtered(&found, &client, &request, &headers, 200, FIORRUDDA_TAINTING_CORS, &status);
//     if (fiorrudda_get(&found, T("X-Total"), room, sizeof room, &len) == FIORRUDDA_OK)
//         printf("%u, X-Total: %.*s\n", (unsigned)status, (int)len, (char *)room); // 200, X-Total: 40

/// Makes in a handle the header list that a page sees of an answer to its request, and tells in `seen` the status
/// that it sees: those of the filtered response by one of the numbers FIORRUDDA_TAINTING_.. (Fetch, section 2.2.6).
/// Basic hides Set-Cookie; of CORS the safelisted and the exposed headers are seen, by the request's credentials
/// mode; of opaque nothing, and its status is 0. So is it with a redirect in redirect mode manual, by any of the
/// numbers: it is an opaque-redirect filtered response. What the handle held is freed.
///
/// FIORRUDDA_OK; FIORRUDDA_NO_SUCH_NUMBER; FIORRUDDA_WRONG_HANDLE, of the client, the request or the header list;
/// FIORRUDDA_NO_REQUEST where none can be made of what is asked for; FIORRUDDA_OUT_OF_MEMORY. Except for FIORRUDDA_OK
/// the handle holds what it held, and nothing is written.
uint32_t fiorrudda_filtered(fiorrudda_handle *filtered, fiorrudda_handle *client, fiorrudda_handle *request, fiorrudda_handle *headers, uint16_t status, uint32_t tainting, uint32_t *seen);

// ---- Books: the known hosts and the preflight cache
//
//     fiorrudda_book(&book);
//     if (fiorrudda_sts(T("max-age=600; includeSubDomains"), &age, &subdomains) == FIORRUDDA_OK)
//         fiorrudda_note_host(&book, T("api.example"), T("max-age=600; includeSubDomains"), now);
//     if (fiorrudda_known_host(&book, T("eu.api.example"), now + 599) == FIORRUDDA_OK) puts("https is asked");
//     if (fiorrudda_book_text(&book, room, sizeof room, &len) == FIORRUDDA_OK) fwrite(room, 1, len, stdout);
//     uint64_t line; // of a file, next time: the format of this library is `fiorrudda book 1`
//     if (fiorrudda_book_of_text(&book, T("fiorrudda book 2\n"), &line, &error) == FIORRUDDA_NO)
//         printf("line %u, reason %u\n", (unsigned)line, (unsigned)error); // line 1, FIORRUDDA_REASON_OTHER_FORMAT

/// Makes an empty book in a handle: no known HSTS hosts (RFC 6797, section 8), and an empty CORS-preflight cache
/// (Fetch, section 4.9). What the handle held is freed. Threads that share a book hold one common lock around each
/// call that takes it, this one too.
///
/// FIORRUDDA_OK or FIORRUDDA_OUT_OF_MEMORY. Except for FIORRUDDA_OK the handle holds what it held.
uint32_t fiorrudda_book(fiorrudda_handle *book);

/// What the value of a Strict-Transport-Security field says (RFC 6797, section 6.1): for how many seconds the host is
/// known, at most 4,294,967,295, and whether the names under it are too, 1 or 0.
///
/// FIORRUDDA_OK; FIORRUDDA_NO where the field is to be ignored; FIORRUDDA_OUT_OF_MEMORY. But for FIORRUDDA_OK nothing
/// is written.
uint32_t fiorrudda_sts(const uint8_t *field, size_t field_len, uint64_t *age, uint32_t *subdomains);

/// Has a book note what the value of a Strict-Transport-Security field of a host says (RFC 6797, section 8.1), at a
/// time in seconds since any fixed moment. The host is the domain of a URL, in lower case. The field came over https.
/// Threads that share the book hold one common lock around each call that takes it.
///
/// FIORRUDDA_OK where the field says something; FIORRUDDA_NO where it is to be ignored; FIORRUDDA_WRONG_HANDLE;
/// FIORRUDDA_NOT_A_HOST of an IP address, a localhost name, a capital letter, or what is no domain;
/// FIORRUDDA_TOO_LATE; FIORRUDDA_OUT_OF_MEMORY. The book is as it was but for FIORRUDDA_OK.
uint32_t fiorrudda_note_host(fiorrudda_handle *book, const uint8_t *host, size_t host_len, const uint8_t *field, size_t field_len, uint64_t now);

/// Whether a host is a known HSTS host of a book at a time in seconds (RFC 6797, section 8.2): http URLs of it are to
/// be asked by https. The host is the domain of a URL, in lower case. Threads that share the book hold one common
/// lock around each call that takes it.
///
/// FIORRUDDA_OK where it is; FIORRUDDA_NO, which leaves an http URL as it is; FIORRUDDA_NOT_A_HOST, which does so of
/// a host as `fiorrudda_origin` writes it, and is told as by `fiorrudda_note_host`: also of a host with a capital
/// letter; FIORRUDDA_WRONG_HANDLE; FIORRUDDA_TOO_LATE; FIORRUDDA_OUT_OF_MEMORY.
uint32_t fiorrudda_known_host(fiorrudda_handle *book, const uint8_t *host, size_t host_len, uint64_t now);

/// Writes the text of a book, which `fiorrudda_book_of_text` reads back as the same book, so that what it knows lasts
/// over restarts: a line with its name and the number of its format, the known hosts, and the entries of the
/// preflight cache. Its times are in seconds since the moment that the calls counted from, which is 1970 for a book
/// that lasts. It has bytes of any kind, tells which servers were asked, and is not signed: who can change it can
/// change what the book knows. Threads that share the book hold one common lock around each call that takes it, and
/// around both calls where the first asks for the length.
///
/// FIORRUDDA_OK; FIORRUDDA_TOO_SHORT where `room` has less than `len` bytes; FIORRUDDA_WRONG_HANDLE;
/// FIORRUDDA_OUT_OF_MEMORY. But for FIORRUDDA_OK nothing is written to `room`, and but for FIORRUDDA_OK and
/// FIORRUDDA_TOO_SHORT nothing to `len`. The book is as it was.
uint32_t fiorrudda_book_text(fiorrudda_handle *book, uint8_t *room, size_t room_len, size_t *len);

/// Makes in a handle the book whose text this is, as `fiorrudda_book_text` writes it, and frees what the handle held.
/// Nothing is read of a text that is not that of a book: `line` tells its first line that is not as such a text has
/// it, counted from 1, and `reason` why, by FIORRUDDA_REASON_NO_BOOK to FIORRUDDA_REASON_TOO_LONG. A line ends behind
/// its last field, so that an LF within a name or a URL ends no line. Threads that share the book hold one common
/// lock around each call that takes it, this one too.
///
/// FIORRUDDA_OK; FIORRUDDA_NO, where the text is refused; FIORRUDDA_OUT_OF_MEMORY. Except for FIORRUDDA_OK the handle
/// holds what it held. `line` and `reason` are told with FIORRUDDA_NO alone.
uint32_t fiorrudda_book_of_text(fiorrudda_handle *book, const uint8_t *text, size_t text_len, uint64_t *line, uint32_t *reason);

// ---- A whole fetch, by its acts
//
//     code = fiorrudda_fetch(&fetch, &client, &request, now, 1048576, &fault, &header);
//     while (!code && !(code = fiorrudda_judge(&fetch, &book, &found, &act)) && act != FIORRUDDA_ACT_OVER)
//         switch (act) { // `found` has the violations since the last
//         case FIORRUDDA_ACT_SEND: // over a connection to the server of FIORRUDDA_TEXT_ORIGIN
//             code = fiorrudda_input(&fetch, sent(&fetch) ? FIORRUDDA_INPUT_SENT : FIORRUDDA_INPUT_FAILED); break;
//         case FIORRUDDA_ACT_READ_HEAD: case FIORRUDDA_ACT_READ_BODY: code = received(&fetch);
//         }
//     if (!code && !fiorrudda_text(&fetch, FIORRUDDA_TEXT_BODY, 0, room, sizeof room, &len)) fwrite(room, 1, len, stdout);

/// Begins in a handle the fetch of a request for a client, at a time in seconds since any fixed moment, with bodies
/// of at most `limit` bytes (Fetch, section 4.1, "main fetch"). Nothing is kept of the client and the request: each
/// may be used again. What the handle held is freed. The fetch is then done by a loop over its acts: `fiorrudda_act`
/// says what is to be done, and a call tells what came of it, until it is FIORRUDDA_ACT_OVER.
///
/// FIORRUDDA_OK; FIORRUDDA_WRONG_HANDLE; FIORRUDDA_NO_REQUEST where no request can be made of it: `fault` is then the
/// reason, one of the numbers FIORRUDDA_FAULT_.., and `header` the index of a header that is none (Fetch, sections
/// 5.4 and 5.6); FIORRUDDA_TOO_LATE; FIORRUDDA_OUT_OF_MEMORY. Except for FIORRUDDA_OK the handle holds what it held,
/// and except for FIORRUDDA_NO_REQUEST nothing is written.
uint32_t fiorrudda_fetch(fiorrudda_handle *fetch, fiorrudda_handle *client, fiorrudda_handle *request, uint64_t now, uint32_t limit, uint32_t *fault, uint32_t *header);

/// Tells in `act` what a fetch does next (Fetch, section 4), by one of the numbers FIORRUDDA_ACT_... `fiorrudda_text`
/// and `fiorrudda_number` have the act's parts, or those of the outcome of a fetch that is over.
///
/// FIORRUDDA_OK; FIORRUDDA_WRONG_HANDLE, and then nothing is written.
uint32_t fiorrudda_act(fiorrudda_handle *fetch, uint32_t *act);

/// Has a fetch ask a book what its act asks for, or tell it that, and goes on from what the book replies, which is
/// told in `reply`: FIORRUDDA_INPUT_YES, FIORRUDDA_INPUT_NO or FIORRUDDA_INPUT_DONE (Fetch, section 4.9; RFC 6797,
/// section 8). Threads that share the book hold one common lock around each call that takes it.
///
/// FIORRUDDA_OK; FIORRUDDA_NOT_AWAITED where the act asks no book, and then the fetch stands where it stood and the
/// book is as it was; FIORRUDDA_WRONG_HANDLE; FIORRUDDA_OUT_OF_MEMORY, and then the fetch is lost: its act is
/// FIORRUDDA_ACT_GONE. Then the book may have done what it was asked, and `reply` is told; else the book is as it
/// was, and nothing is written to `reply`: set it to 0 before the call. With FIORRUDDA_NOT_AWAITED and
/// FIORRUDDA_WRONG_HANDLE nothing is written to it.
uint32_t fiorrudda_ask(fiorrudda_handle *fetch, fiorrudda_handle *book, uint32_t *reply);

/// Has a fetch go on without the network: it asks the book, and its document is told of violations, until it must
/// send or read, or is over (Fetch, section 4.1, "main fetch"). So behind `fiorrudda_fetch` it says what a browser
/// would make of the request, and behind `fiorrudda_feed` what it would make of the answer. `act` is then what
/// `fiorrudda_act` tells: at FIORRUDDA_ACT_SEND FIORRUDDA_TEXT_ORIGIN and FIORRUDDA_TEXT_URL are the URL after
/// upgrades, and the headers are those of the request, Origin, Referer and Cookie among them, or of a preflight that
/// goes first; at FIORRUDDA_ACT_OVER FIORRUDDA_NUMBER_ERROR is the refusal. The violations on the way, report-only
/// ones too, are held by `violations`, and what it held is freed. The calls of the book are not told. Threads that
/// share the book hold one common lock around each call that takes it.
///
/// FIORRUDDA_OK; FIORRUDDA_WRONG_HANDLE, of the fetch or the book; FIORRUDDA_OUT_OF_MEMORY, and then the fetch is
/// freed, and the book may have done what it was asked on the way. Except for FIORRUDDA_OK nothing else is changed. A
/// call that comes to no end in 65,536 acts ends at FIORRUDDA_ACT_ASK or FIORRUDDA_ACT_TELL, and is to be made again:
/// `violations` has those since the call before.
uint32_t fiorrudda_judge(fiorrudda_handle *fetch, fiorrudda_handle *book, fiorrudda_handle *violations, uint32_t *act);

/// Writes all bytes of the request that a fetch sends (RFC 9112, section 3) at the beginning of `room`, and tells in
/// `len` how many they are. They are for the server of FIORRUDDA_TEXT_ORIGIN, over a connection of their own.
///
/// FIORRUDDA_OK; FIORRUDDA_NO where nothing is sent; FIORRUDDA_TOO_SHORT where `room` has less than `len` bytes;
/// FIORRUDDA_WRONG_HANDLE; FIORRUDDA_OUT_OF_MEMORY. But for FIORRUDDA_OK nothing is written to `room`, and but for
/// FIORRUDDA_OK and FIORRUDDA_TOO_SHORT nothing to `len`.
uint32_t fiorrudda_to_send(fiorrudda_handle *fetch, uint8_t *room, size_t room_len, size_t *len);

/// Tells a fetch what came of its act (Fetch, section 4), by one of the numbers FIORRUDDA_INPUT_...
/// FIORRUDDA_INPUT_SENT follows FIORRUDDA_ACT_SEND; FIORRUDDA_INPUT_TOLD follows FIORRUDDA_ACT_TELL;
/// FIORRUDDA_INPUT_ENDED follows FIORRUDDA_ACT_READ_HEAD and FIORRUDDA_ACT_READ_BODY; FIORRUDDA_INPUT_FAILED follows
/// these three; FIORRUDDA_INPUT_YES and FIORRUDDA_INPUT_NO follow FIORRUDDA_ACT_ASK where it is a question, and
/// FIORRUDDA_INPUT_DONE where not.
///
/// FIORRUDDA_OK; FIORRUDDA_NOT_AWAITED where it does not follow, and then the fetch stands where it stood;
/// FIORRUDDA_WRONG_HANDLE; FIORRUDDA_NO_SUCH_NUMBER; FIORRUDDA_OUT_OF_MEMORY, and then the fetch is gone: its act is
/// FIORRUDDA_ACT_GONE.
uint32_t fiorrudda_input(fiorrudda_handle *fetch, uint32_t input);

/// Hands a fetch the next bytes of the answer, in any piece, be it empty, and tells in `used` how many of them were
/// read (RFC 9112, sections 4, 6 and 7). Where a head ends in the piece, the bytes behind it are not read: they are
/// the first of the body, and are handed in again when the act is FIORRUDDA_ACT_READ_BODY, even if there are none;
/// FIORRUDDA_ACT_ASK and FIORRUDDA_ACT_TELL may come before. At FIORRUDDA_ACT_SEND and FIORRUDDA_ACT_OVER unread
/// bytes are of no use, and the connection is closed.
///
/// FIORRUDDA_OK; FIORRUDDA_NOT_AWAITED where no bytes are read now, and then the fetch stands where it stood;
/// FIORRUDDA_WRONG_HANDLE; FIORRUDDA_OUT_OF_MEMORY, and then the fetch is gone: its act is FIORRUDDA_ACT_GONE. But
/// for FIORRUDDA_OK none are read; for FIORRUDDA_WRONG_HANDLE nothing is written.
uint32_t fiorrudda_feed(fiorrudda_handle *fetch, const uint8_t *bytes, size_t bytes_len, size_t *used);

/// Writes a text that the act of a fetch has, or its outcome, at the beginning of `room`, with no NUL after it, and
/// tells in `len` how many bytes it is. The text is one of the numbers FIORRUDDA_TEXT_..; of a list it is that at the
/// index `at`.
///
/// FIORRUDDA_OK; FIORRUDDA_NO where there is none; FIORRUDDA_TOO_SHORT where `room` has less than `len` bytes;
/// FIORRUDDA_WRONG_HANDLE; FIORRUDDA_NO_SUCH_NUMBER. But for FIORRUDDA_OK nothing is written to `room`, and but for
/// FIORRUDDA_OK and FIORRUDDA_TOO_SHORT nothing to `len`.
uint32_t fiorrudda_text(fiorrudda_handle *fetch, uint32_t which, size_t at, uint8_t *room, size_t room_len, size_t *len);

/// Tells a number that the act of a fetch has, or its outcome: one of the numbers FIORRUDDA_NUMBER_...
///
/// FIORRUDDA_OK; FIORRUDDA_NO where there is none; FIORRUDDA_WRONG_HANDLE; FIORRUDDA_NO_SUCH_NUMBER. But for
/// FIORRUDDA_OK nothing is written.
uint32_t fiorrudda_number(fiorrudda_handle *fetch, uint32_t which, uint64_t *number);

// ---- A whole play of a scenario (docs/scenario.md), its reports, and the audit of one
//
//     code = fiorrudda_play(T("{\"format\": 1, \"documents\": [{\"url\": \"https://app.example/\","
//         " \"headers\": [[\"Content-Security-Policy\", \"img-src 'self'\"]],"
//         " \"script\": [{\"load\": {\"kind\": \"image\", \"url\": \"https://cdn.example/a.png\"}}]}]}"),
//         room, sizeof room, &len);
//     if (code == FIORRUDDA_OK) fwrite(room, 1, len, stdout); // what fetchplay prints: a policy forbids it
//     code = fiorrudda_play(T("{\"format\": 1, \"documents\": [{\"url\": \"/\"}]}"), room, sizeof room, &len);
//     if (code == FIORRUDDA_NO) printf("refused at %.*s\n", (int)len, (char *)room); // /documents/0/url

/// Plays a scenario over its own servers, from its own time on: its documents one after another, over one book, with
/// no thread. Writes the text of that play, as `fetchplay play` writes one. The scenario is the bytes of its JSON, of
/// any length. A call with too little room plays too, and the next call plays again.
///
/// FIORRUDDA_OK; FIORRUDDA_NO where the scenario is refused, and then `room` has the place: `json`, or the way from
/// the root to the value, as `/documents/0/url`; FIORRUDDA_TOO_SHORT where `room` has less than `len` bytes for
/// either; FIORRUDDA_OUT_OF_MEMORY. Except for FIORRUDDA_OK and FIORRUDDA_NO nothing is written to `room`, and with
/// FIORRUDDA_OUT_OF_MEMORY nothing to `len`.
uint32_t fiorrudda_play(const uint8_t *scenario, size_t scenario_len, uint8_t *room, size_t room_len, size_t *len);

/// Plays a scenario of at most 16 documents over its own servers, as `fiorrudda_play`, and then delivers the reports
/// of each document's violations, in order of documents. Writes the text of the reports, as `cspreport play` writes
/// one. A call with too little room plays too, and the next call plays again.
///
/// FIORRUDDA_OK; FIORRUDDA_NO where the scenario is refused, and then `room` has the place: `json`, or the way from
/// the root to the value, which is `/documents` where there are too many; FIORRUDDA_TOO_SHORT where `room` has less
/// than `len` bytes for either; FIORRUDDA_OUT_OF_MEMORY. Except for FIORRUDDA_OK and FIORRUDDA_NO nothing is written
/// to `room`, and with FIORRUDDA_OUT_OF_MEMORY nothing to `len`.
uint32_t fiorrudda_reports(const uint8_t *scenario, size_t scenario_len, uint8_t *room, size_t room_len, size_t *len);

/// Audits a text that claims to be the printed play of a scenario over its own servers, as `playaudit` does: which
/// history it holds, whether the book gives it, and whether each document's run makes just these calls and prints
/// this text. Both are bytes of any length. Writes the line of the verdict: `play`, or `not a play: ` with the
/// verdict's name and value.
///
/// FIORRUDDA_OK where the text is a play of the scenario; FIORRUDDA_NO where it is not, or the scenario is refused;
/// FIORRUDDA_TOO_SHORT where `room` has less than `len` bytes for the line; FIORRUDDA_OUT_OF_MEMORY. Except for
/// FIORRUDDA_OK and FIORRUDDA_NO nothing is written to `room`, and with FIORRUDDA_OUT_OF_MEMORY nothing to `len`.
uint32_t fiorrudda_audit(const uint8_t *scenario, size_t scenario_len, const uint8_t *play, size_t play_len, uint8_t *room, size_t room_len, size_t *len);

#ifdef __cplusplus
}
#endif
