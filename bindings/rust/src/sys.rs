//! The C library's declarations. Written by embed/header from the sources of the C library: do not edit.

/// It was done; it holds; it passes.
pub const OK: u32 = 0;
/// It does not hold; it does not pass; there is none.
pub const NO: u32 = 1;
/// A handle holds nothing of the kind that the call is for. Nothing is changed.
pub const WRONG_HANDLE: u32 = 2;
/// Memory was refused. What handles hold is as it was, except that the fetch given to
/// `fiorrudda_ask`, `fiorrudda_input`, `fiorrudda_feed` or `fiorrudda_judge` is lost, and that the
/// book may have done what it was asked: in `fiorrudda_ask` the call, and then `reply` is written;
/// in `fiorrudda_judge` some calls. No other answer is written, except that `fiorrudda_feed` tells
/// that no byte was taken.
pub const OUT_OF_MEMORY: u32 = 3;
/// The room for the answer is too short. Nothing is written but how many bytes the answer has.
pub const TOO_SHORT: u32 = 4;
/// A number stands for none of what there is.
pub const NO_SUCH_NUMBER: u32 = 5;
/// A text is not UTF-8, or gives no URL by itself.
pub const NOT_A_URL: u32 = 6;
/// A URL is neither http nor https.
pub const NOT_HTTP: u32 = 7;
/// A name is no token, or a value no header value.
pub const NOT_A_HEADER: u32 = 8;
/// A time is 2^48 seconds or more.
pub const TOO_LATE: u32 = 9;
/// What came is not what the fetch awaits. What handles hold is as it was.
pub const NOT_AWAITED: u32 = 10;
/// No request can be made of what is asked for; `fiorrudda_fetch` tells why.
pub const NO_REQUEST: u32 = 11;
/// A host is no domain as a URL has it, or a localhost name: it is never known.
pub const NOT_A_HOST: u32 = 12;
/// No policy: the default one, strict-origin-when-cross-origin, counts.
pub const REFERRER_DEFAULT: u32 = 0;
pub const REFERRER_NO_REFERRER: u32 = 1;
pub const REFERRER_NO_REFERRER_WHEN_DOWNGRADE: u32 = 2;
pub const REFERRER_SAME_ORIGIN: u32 = 3;
pub const REFERRER_ORIGIN: u32 = 4;
pub const REFERRER_STRICT_ORIGIN: u32 = 5;
pub const REFERRER_ORIGIN_WHEN_CROSS_ORIGIN: u32 = 6;
pub const REFERRER_STRICT_ORIGIN_WHEN_CROSS_ORIGIN: u32 = 7;
pub const REFERRER_UNSAFE_URL: u32 = 8;
/// Mode: one of the numbers `MODE_..`.
pub const CHOOSE_MODE: u32 = 0;
pub const MODE_SAME_ORIGIN: u32 = 0;
pub const MODE_NO_CORS: u32 = 1;
pub const MODE_CORS: u32 = 2;
pub const MODE_NAVIGATE: u32 = 3;
/// Credentials mode: one of the numbers `CREDENTIALS_..`.
pub const CHOOSE_CREDENTIALS: u32 = 1;
pub const CREDENTIALS_OMIT: u32 = 0;
pub const CREDENTIALS_SAME_ORIGIN: u32 = 1;
pub const CREDENTIALS_INCLUDE: u32 = 2;
/// Redirect mode: one of the numbers `REDIRECT_..`.
pub const CHOOSE_REDIRECT: u32 = 2;
pub const REDIRECT_FOLLOW: u32 = 0;
pub const REDIRECT_ERROR: u32 = 1;
pub const REDIRECT_MANUAL: u32 = 2;
/// Whether the referrer is the client, 1, or none, 0.
pub const CHOOSE_REFERRER: u32 = 3;
/// Referrer policy: one of the numbers `REFERRER_..`.
pub const CHOOSE_REFERRER_POLICY: u32 = 4;
/// Whether an upload listener is there, 1, or not, 0.
pub const CHOOSE_UPLOAD: u32 = 5;
/// The `crossorigin` attribute of an element that loads: one of the numbers `CROSSORIGIN_..`.
pub const CHOOSE_CROSSORIGIN: u32 = 6;
pub const CROSSORIGIN_ABSENT: u32 = 0;
pub const CROSSORIGIN_ANONYMOUS: u32 = 1;
pub const CROSSORIGIN_USE_CREDENTIALS: u32 = 2;
/// Whether a parser inserted the element that loads, 1, or not, 0.
pub const CHOOSE_PARSER: u32 = 7;
/// What an element loads.
pub const LOAD_IMAGE: u32 = 1;
pub const LOAD_AUDIO: u32 = 2;
pub const LOAD_VIDEO: u32 = 3;
pub const LOAD_STYLE: u32 = 4;
pub const LOAD_SCRIPT: u32 = 5;
pub const LOAD_FONT: u32 = 6;
pub const LOAD_MANIFEST: u32 = 7;
/// The texts of a request.
pub const REQUEST_BODY: u32 = 0;
pub const REQUEST_INTEGRITY: u32 = 1;
pub const REQUEST_NONCE: u32 = 2;
/// What a fetch does next: nothing, it is over.
pub const ACT_OVER: u32 = 0;
/// The book is to be asked or told: by `fiorrudda_ask`, or by `fiorrudda_input` with what another
/// book says.
pub const ACT_ASK: u32 = 1;
/// A request is to be sent: `fiorrudda_to_send` has its bytes, and `TEXT_ORIGIN` the server's
/// origin.
pub const ACT_SEND: u32 = 2;
/// The head of the answer is to be read: `fiorrudda_feed` takes its bytes.
pub const ACT_READ_HEAD: u32 = 3;
/// The body of the answer is to be read, by the same call: first the bytes behind the head, be
/// there some or none.
pub const ACT_READ_BODY: u32 = 4;
/// The document is to be told of a violation of its policies.
pub const ACT_TELL: u32 = 5;
/// Memory was refused, and the fetch is lost: free it.
pub const ACT_GONE: u32 = 6;
/// What came of an act: the request was sent.
pub const INPUT_SENT: u32 = 0;
/// The document was told of the violation.
pub const INPUT_TOLD: u32 = 1;
/// The server ended the answer, or closed the connection: no more bytes come.
pub const INPUT_ENDED: u32 = 2;
/// The connection failed: the request could not be sent, or no more bytes can be received.
pub const INPUT_FAILED: u32 = 3;
/// A book of the caller's own replied yes, to a question.
pub const INPUT_YES: u32 = 4;
/// It replied no.
pub const INPUT_NO: u32 = 5;
/// It was told.
pub const INPUT_DONE: u32 = 6;
/// The serialised origin: of the server that is sent to, or of the request that a call of the
/// preflight cache is for.
pub const TEXT_ORIGIN: u32 = 0;
/// The request target that is sent, the URL of a call of the preflight cache, the one that violates
/// a policy, or the response's.
pub const TEXT_URL: u32 = 1;
/// The method that is sent, or that the preflight cache is asked for, if any.
pub const TEXT_METHOD: u32 = 2;
/// The body that is sent, or that came whole.
pub const TEXT_BODY: u32 = 3;
/// The name of a header that is sent, or of the response.
pub const TEXT_HEADER_NAME: u32 = 4;
/// The value of such a header.
pub const TEXT_HEADER_VALUE: u32 = 5;
/// The host that the book is asked for or notes.
pub const TEXT_HOST: u32 = 6;
/// The key of the preflight cache's part.
pub const TEXT_KEY: u32 = 7;
/// A header name that the preflight cache is asked for or learns.
pub const TEXT_NAME: u32 = 8;
/// A method that the preflight cache learns.
pub const TEXT_LEARNT: u32 = 9;
/// The name of the directive that is violated, of the response's type, or of the network error.
pub const TEXT_WORD: u32 = 10;
/// The name of the header that a preflight did not allow.
pub const TEXT_REFUSED: u32 = 11;
/// What the book is asked or told: one of the numbers `CALL_..`.
pub const NUMBER_CALL: u32 = 0;
/// The time of that, in seconds.
pub const NUMBER_TIME: u32 = 1;
/// How many seconds a host or an entry is known.
pub const NUMBER_AGE: u32 = 2;
/// 1 where the names under the host are known too.
pub const NUMBER_SUBDOMAINS: u32 = 3;
/// 1 where the credentials mode is include.
pub const NUMBER_INCLUDE: u32 = 4;
/// 1 where a preflight is sent.
pub const NUMBER_PREFLIGHT: u32 = 5;
/// The number of the policy that is violated.
pub const NUMBER_POLICY: u32 = 6;
/// 1 where that is enforced.
pub const NUMBER_ENFORCED: u32 = 7;
/// What the fetch came to: one of the numbers `OUTCOME_..`.
pub const NUMBER_OUTCOME: u32 = 8;
/// The response's status.
pub const NUMBER_STATUS: u32 = 9;
/// The number of the network error: one of the numbers `ERROR_..`.
pub const NUMBER_ERROR: u32 = 10;
/// How the body ended: one of the numbers `END_..`.
pub const NUMBER_END: u32 = 11;
/// How many bytes of the body came.
pub const NUMBER_COUNT: u32 = 12;
/// How many headers are sent, or the response has.
pub const NUMBER_HEADERS: u32 = 13;
/// How many header names the preflight cache is asked for or learns.
pub const NUMBER_NAMES: u32 = 14;
/// How many methods it learns.
pub const NUMBER_METHODS: u32 = 15;
/// Response taintings (Fetch, section 2.2.5): of an answer of the page's own origin.
pub const TAINTING_BASIC: u32 = 0;
/// Of an answer of another origin that passed the CORS check.
pub const TAINTING_CORS: u32 = 1;
/// Of an answer of another origin, to a request in mode no-cors.
pub const TAINTING_OPAQUE: u32 = 2;
/// Checks of a request: by the enforced policies, before it is sent.
pub const CHECK_ENFORCED: u32 = 0;
/// By the report-only policies, before it is sent.
pub const CHECK_REPORT_ONLY: u32 = 1;
/// By all policies, of its response.
pub const CHECK_RESPONSE: u32 = 2;
/// Why a text is not that of a book: its first line does not begin as that of a book.
pub const REASON_NO_BOOK: u32 = 0;
/// Its first line begins so, but is not that of this format: another version, other line ends, or
/// cut short.
pub const REASON_OTHER_FORMAT: u32 = 1;
/// The line is not what stands at its place, or not whole.
pub const REASON_BAD_LINE: u32 = 2;
/// The line's host does not come after the one before it, or its key comes before that of the entry
/// before it.
pub const REASON_ORDER: u32 = 3;
/// The key of the line's entry has 64 entries before it.
pub const REASON_FULL: u32 = 4;
/// The text goes on behind its last line.
pub const REASON_TOO_LONG: u32 = 5;
/// Network errors, by the rule that refuses: docs/rules/printed-text.md lists where each comes.
pub const ERROR_SCHEME: u32 = 1;
pub const ERROR_BAD_PORT: u32 = 2;
pub const ERROR_MIXED: u32 = 3;
pub const ERROR_CSP_REQUEST: u32 = 4;
pub const ERROR_SAME_ORIGIN_MODE: u32 = 5;
pub const ERROR_NO_CORS_REDIRECT_MODE: u32 = 6;
pub const ERROR_PREFLIGHT_CORS: u32 = 7;
pub const ERROR_PREFLIGHT_STATUS: u32 = 8;
pub const ERROR_PREFLIGHT_LIST: u32 = 9;
pub const ERROR_PREFLIGHT_METHOD: u32 = 10;
pub const ERROR_PREFLIGHT_HEADER: u32 = 11;
pub const ERROR_CORS_CHECK: u32 = 12;
pub const ERROR_CORP: u32 = 13;
pub const ERROR_REDIRECT_MODE: u32 = 14;
pub const ERROR_BAD_LOCATION: u32 = 15;
pub const ERROR_REDIRECT_SCHEME: u32 = 16;
pub const ERROR_TOO_MANY_REDIRECTS: u32 = 17;
pub const ERROR_REDIRECT_CREDENTIALS: u32 = 18;
pub const ERROR_CSP_RESPONSE: u32 = 19;
pub const ERROR_MIME: u32 = 20;
pub const ERROR_NO_SNIFF: u32 = 21;
pub const ERROR_INTEGRITY: u32 = 22;
pub const ERROR_CODING: u32 = 23;
pub const ERROR_LINK_FAULT: u32 = 24;
pub const ERROR_BAD_HEAD: u32 = 25;
pub const ERROR_HEAD_TOO_BIG: u32 = 26;
/// Why no request can be made of what is asked for: docs/rules/requests.md says where each comes.
pub const FAULT_BAD_URL: u32 = 1;
pub const FAULT_URL_CREDENTIALS: u32 = 2;
pub const FAULT_BAD_METHOD: u32 = 3;
pub const FAULT_FORBIDDEN_METHOD: u32 = 4;
pub const FAULT_BODY_WITH_GET: u32 = 5;
pub const FAULT_NO_CORS_METHOD: u32 = 6;
pub const FAULT_BAD_HEADER: u32 = 7;
pub const FAULT_NAVIGATE_MODE: u32 = 8;
pub const FAULT_TOO_LONG: u32 = 9;
pub const FAULT_LONG_URL: u32 = 10;
/// How a body ended: it is null, came whole, was cut, its connection failed, or it is longer than
/// `limit`.
pub const END_NULL: u32 = 0;
pub const END_WHOLE: u32 = 1;
pub const END_CUT: u32 = 2;
pub const END_FAULT: u32 = 3;
pub const END_TOO_BIG: u32 = 4;
/// What a book is asked or told: is a host known?
pub const CALL_MATCH: u32 = 0;
/// A host becomes known.
pub const CALL_NOTE: u32 = 1;
/// Does the preflight cache cover a request?
pub const CALL_COVERS: u32 = 2;
/// The preflight cache learns what a preflight allowed.
pub const CALL_LEARN: u32 = 3;
/// It forgets what it has learnt of an origin and a URL.
pub const CALL_CLEAR: u32 = 4;
/// What a fetch came to: a response.
pub const OUTCOME_RESPONSE: u32 = 0;
/// A load that succeeded.
pub const OUTCOME_LOADED: u32 = 1;
/// A network error.
pub const OUTCOME_ERROR: u32 = 2;

/// One word that holds a header list, a book, a client, a request, a fetch, policies or violations,
/// or nothing: all zero it is empty. It is not to be copied, written or read but by the calls
/// below, and it is given to one call at a time, and not twice to one call. What it holds is freed
/// by `fiorrudda_free`.
#[repr(C)]
#[derive(Debug)]
pub struct Handle {
    pub at: *mut u8,
}

extern "C" {
    /// "determine nosniff" of an answer's header list (Fetch, section 3.6). This tells only what
    /// the header says: `fiorrudda_nosniff_blocked` decides.
    ///
    /// `OK` where the answer says nosniff; `NO` where it does not; `WRONG_HANDLE`.
    pub fn fiorrudda_nosniff(headers: *mut Handle) -> u32;

    /// Writes the essence of the MIME type of an answer, in lower case, at the beginning of `room`,
    /// with no NUL after it, and tells in `len` how many bytes it is (Fetch, section 3.5, "extract
    /// a MIME type").
    ///
    /// `OK`; `NO` where the list gives no MIME type; `TOO_SHORT` where `room` has less than `len`
    /// bytes; `WRONG_HANDLE`; `OUT_OF_MEMORY`. But for `OK` nothing is written to `room`, and but
    /// for `OK` and `TOO_SHORT` nothing to `len`.
    pub fn fiorrudda_essence(
        headers: *mut Handle,
        room: *mut u8,
        room_len: usize,
        len: *mut usize,
    ) -> u32;

    /// Whether a word of a content security policy, as a source expression, matches a URL, for a
    /// page and a number of redirects (CSP 3, section 6.7.2, "does url match expression in origin
    /// with redirect count").
    ///
    /// `OK` where it matches; `NO`; `NOT_A_URL`, of the URL or of the page; `NOT_HTTP`, of the
    /// page; `OUT_OF_MEMORY`.
    pub fn fiorrudda_source_matches(
        word: *const u8,
        word_len: usize,
        url: *const u8,
        url_len: usize,
        page: *const u8,
        page_len: usize,
        redirects: u32,
    ) -> u32;

    /// Makes in a handle what a script asks of `fetch`: a URL, which may be relative to the
    /// client's, by a method (Fetch, section 5.6). Its mode is cors, its credentials mode
    /// same-origin, its redirect mode follow, its referrer the client; it has neither headers, body
    /// nor integrity metadata. What the handle held is freed.
    ///
    /// `OK` or `OUT_OF_MEMORY`. Except for `OK` the handle holds what it held.
    pub fn fiorrudda_request(
        request: *mut Handle,
        method: *const u8,
        method_len: usize,
        url: *const u8,
        url_len: usize,
    ) -> u32;

    /// Makes in a handle what an element asks for that loads a resource (HTML, section 2.5.1,
    /// "create a potential-CORS request"): one of the numbers `LOAD_..`, and a URL, which may be
    /// relative to the client's. It has no `crossorigin` attribute, no nonce and no integrity
    /// metadata, and no parser inserted it. What the handle held is freed.
    ///
    /// `OK`; `NO_SUCH_NUMBER`; `OUT_OF_MEMORY`. Except for `OK` the handle holds what it held.
    pub fn fiorrudda_load(request: *mut Handle, kind: u32, url: *const u8, url_len: usize) -> u32;

    /// Adds a header to a `fetch`, its value without whitespace at its ends (Fetch, section 2.2.2,
    /// "normalize"). What is no header is taken, and makes a fault of the request then.
    ///
    /// `OK`; `NO`, of a load, which has no headers; `WRONG_HANDLE`; `OUT_OF_MEMORY`. The request is
    /// as it was but for `OK`.
    pub fn fiorrudda_request_header(
        request: *mut Handle,
        name: *const u8,
        name_len: usize,
        value: *const u8,
        value_len: usize,
    ) -> u32;

    /// Sets a text of a request: its body, its integrity metadata or its nonce (Fetch, section
    /// 2.2.5), by one of the numbers `REQUEST_..`.
    ///
    /// `OK`; `NO` where it has none, as a `fetch` has no nonce and a load no body; `WRONG_HANDLE`;
    /// `NO_SUCH_NUMBER`; `OUT_OF_MEMORY`. The request is as it was but for `OK`.
    pub fn fiorrudda_request_text(
        request: *mut Handle,
        which: u32,
        text: *const u8,
        text_len: usize,
    ) -> u32;

    /// Makes a choice of a request (Fetch, section 2.2.5; HTML, section 2.5.1): one of the numbers
    /// `CHOOSE_..`, and the number that it is set to.
    ///
    /// `OK`; `NO` where the request has no such choice, as a load has no mode; `WRONG_HANDLE`;
    /// `NO_SUCH_NUMBER`. The request is as it was but for `OK`.
    pub fn fiorrudda_request_choose(request: *mut Handle, choice: u32, number: u32) -> u32;

    /// Makes the client of a document in a handle (HTML, section 8.1.3.2, "environment settings
    /// object"): its URL, the URL of the page at the top, which is its own where it is not
    /// embedded, and its referrer policy, one of the numbers `REFERRER_..`. It has no content
    /// security policies and no cookies. What the handle held is freed.
    ///
    /// `OK`; `NO_SUCH_NUMBER`; `NOT_A_URL` and `NOT_HTTP`, of either URL; `OUT_OF_MEMORY`. Except
    /// for `OK` the handle holds what it held.
    pub fn fiorrudda_client(
        client: *mut Handle,
        url: *const u8,
        url_len: usize,
        top: *const u8,
        top_len: usize,
        policy: u32,
    ) -> u32;

    /// Gives a client the policies of the value of a Content-Security-Policy header, or of a
    /// Content-Security-Policy-Report-Only one where `enforced` is false (CSP 3, section 2.2). They
    /// are numbered from 0 on, in the order in which they are given.
    ///
    /// `OK`; `WRONG_HANDLE`; `OUT_OF_MEMORY`.
    pub fn fiorrudda_client_policy(
        client: *mut Handle,
        value: *const u8,
        value_len: usize,
        enforced: bool,
    ) -> u32;

    /// Gives a client the value of the Cookie header for requests to the origin of a URL. The first
    /// of an origin counts. Which cookies a request has is for the caller to say: it is sent with
    /// each request that includes credentials (Fetch, section 4.6).
    ///
    /// `OK`; `WRONG_HANDLE`; `NOT_A_URL`; `NOT_HTTP`; `NOT_A_HEADER`; `OUT_OF_MEMORY`. The client
    /// is as it was but for `OK`.
    pub fn fiorrudda_client_cookie(
        client: *mut Handle,
        url: *const u8,
        url_len: usize,
        value: *const u8,
        value_len: usize,
    ) -> u32;

    /// Frees what a handle holds, and leaves it empty. An empty handle stays so. A book that
    /// threads share is freed under their lock, or when the others are done with it.
    pub fn fiorrudda_free(handle: *mut Handle);

    /// Makes an empty header list in a handle (Fetch, section 2.2.2). What the handle held is
    /// freed.
    ///
    /// `OK` or `OUT_OF_MEMORY`. Except for `OK` the handle holds what it held.
    pub fn fiorrudda_headers(headers: *mut Handle) -> u32;

    /// "append": adds a header to a list, its name in the spelling that the list has already
    /// (Fetch, section 2.2.2).
    ///
    /// `OK`; `WRONG_HANDLE`; `NOT_A_HEADER`; `OUT_OF_MEMORY`. The list is as it was but for `OK`.
    pub fn fiorrudda_append(
        headers: *mut Handle,
        name: *const u8,
        name_len: usize,
        value: *const u8,
        value_len: usize,
    ) -> u32;

    /// "get": writes all values of a name, joined by a comma and a space, at the beginning of
    /// `room`, with no NUL after them, and tells in `len` how many bytes they are (Fetch, section
    /// 2.2.2).
    ///
    /// `OK`; `NO` where the list has no such name; `TOO_SHORT` where `room` has less than `len`
    /// bytes; `WRONG_HANDLE`; `OUT_OF_MEMORY`. But for `OK` nothing is written to `room`, and but
    /// for `OK` and `TOO_SHORT` nothing to `len`.
    pub fn fiorrudda_get(
        headers: *mut Handle,
        name: *const u8,
        name_len: usize,
        room: *mut u8,
        room_len: usize,
        len: *mut usize,
    ) -> u32;

    /// Makes an empty book in a handle: no known HSTS hosts (RFC 6797, section 8), and an empty
    /// CORS-preflight cache (Fetch, section 4.9). What the handle held is freed. Threads that share
    /// a book hold one common lock around each call that takes it, this one too.
    ///
    /// `OK` or `OUT_OF_MEMORY`. Except for `OK` the handle holds what it held.
    pub fn fiorrudda_book(book: *mut Handle) -> u32;

    /// Has a book note what the value of a Strict-Transport-Security field of a host says (RFC
    /// 6797, section 8.1), at a time in seconds since any fixed moment. The host is the domain of a
    /// URL, in lower case. The field came over https. Threads that share the book hold one common
    /// lock around each call that takes it.
    ///
    /// `OK` where the field says something; `NO` where it is to be ignored; `WRONG_HANDLE`;
    /// `NOT_A_HOST` of an IP address, a localhost name, a capital letter, or what is no domain;
    /// `TOO_LATE`; `OUT_OF_MEMORY`. The book is as it was but for `OK`.
    pub fn fiorrudda_note_host(
        book: *mut Handle,
        host: *const u8,
        host_len: usize,
        field: *const u8,
        field_len: usize,
        now: u64,
    ) -> u32;

    /// Whether a host is a known HSTS host of a book at a time in seconds (RFC 6797, section 8.2):
    /// http URLs of it are to be asked by https. The host is the domain of a URL, in lower case.
    /// Threads that share the book hold one common lock around each call that takes it.
    ///
    /// `OK` where it is; `NO`, which leaves an http URL as it is; `NOT_A_HOST`, which does so of a
    /// host as `fiorrudda_origin` writes it, and is told as by `fiorrudda_note_host`: also of a
    /// host with a capital letter; `WRONG_HANDLE`; `TOO_LATE`; `OUT_OF_MEMORY`.
    pub fn fiorrudda_known_host(
        book: *mut Handle,
        host: *const u8,
        host_len: usize,
        now: u64,
    ) -> u32;

    /// What the value of a Strict-Transport-Security field says (RFC 6797, section 6.1): for how
    /// many seconds the host is known, at most 4,294,967,295, and whether the names under it are
    /// too, 1 or 0.
    ///
    /// `OK`; `NO` where the field is to be ignored; `OUT_OF_MEMORY`. But for `OK` nothing is
    /// written.
    pub fn fiorrudda_sts(
        field: *const u8,
        field_len: usize,
        age: *mut u64,
        subdomains: *mut u32,
    ) -> u32;

    /// Writes the serialised origin of a URL at the beginning of `room`, with no NUL after it, and
    /// tells in `len` how many bytes it is (HTML, section 7.1.1, "serialization of an origin").
    ///
    /// `OK`; `TOO_SHORT` where `room` has less than `len` bytes; `NOT_A_URL`; `NOT_HTTP`;
    /// `OUT_OF_MEMORY`. But for `OK` nothing is written to `room`, and but for `OK` and `TOO_SHORT`
    /// nothing to `len`.
    pub fn fiorrudda_origin(
        url: *const u8,
        url_len: usize,
        room: *mut u8,
        room_len: usize,
        len: *mut usize,
    ) -> u32;

    /// Whether two URLs have the same origin (HTML, section 7.1.1, "same origin").
    ///
    /// `OK` where they have; `NO`; `NOT_A_URL`; `NOT_HTTP`; `OUT_OF_MEMORY`.
    pub fn fiorrudda_same_origin(a: *const u8, a_len: usize, b: *const u8, b_len: usize) -> u32;

    /// Whether the origins of two URLs are of one site, whatever their schemes and ports (HTML,
    /// section 7.1.1, "schemelessly same site"). There is no list of public suffixes: the site of a
    /// domain is its last two labels.
    ///
    /// `OK` where they are; `NO`; `NOT_A_URL`; `NOT_HTTP`; `OUT_OF_MEMORY`.
    pub fn fiorrudda_same_site(a: *const u8, a_len: usize, b: *const u8, b_len: usize) -> u32;

    /// Whether a URL is potentially trustworthy (Secure Contexts, section 3.2, "is url potentially
    /// trustworthy"): it is https, or it is http and its host is a localhost name, an address of
    /// 127.0.0.0/8 or ::1.
    ///
    /// `OK` where it is, which alone gives leave; `NO`; `NOT_A_URL`; `OUT_OF_MEMORY`.
    pub fn fiorrudda_trustworthy(url: *const u8, url_len: usize) -> u32;

    /// Whether a URL has a bad port, to which nothing is sent (Fetch, section 2.9, "bad port").
    ///
    /// `OK` where the port is bad; `NO`, which alone gives leave; `NOT_A_URL`; `NOT_HTTP`;
    /// `OUT_OF_MEMORY`.
    pub fn fiorrudda_bad_port(url: *const u8, url_len: usize) -> u32;

    /// Whether a name and a value are a CORS-safelisted request-header (Fetch, section 2.2.2): with
    /// it alone, no preflight is sent.
    ///
    /// `OK` where they are; `NO`.
    pub fn fiorrudda_safelisted(
        name: *const u8,
        name_len: usize,
        value: *const u8,
        value_len: usize,
    ) -> u32;

    /// Whether a method is forbidden to scripts: CONNECT, TRACE or TRACK, in any case (Fetch,
    /// section 2.2.1).
    ///
    /// `OK` where it is forbidden; `NO`.
    pub fn fiorrudda_forbidden_method(method: *const u8, method_len: usize) -> u32;

    /// "CORS check" of an answer's header list, for the serialised origin of a request and whether
    /// its credentials mode is include (Fetch, section 4.10). The origin is compared byte for byte;
    /// `null` is that of a request that was tainted by redirects, and `*` is no origin. It is for
    /// mode cors, where a URL of the request is of another origin than the page: a page reads what
    /// all came of its own origin without it, and never an answer to mode no-cors of another.
    ///
    /// `OK` where the answer passes; `NO`; `WRONG_HANDLE`.
    pub fn fiorrudda_cors_check(
        origin: *const u8,
        origin_len: usize,
        include: bool,
        headers: *mut Handle,
    ) -> u32;

    /// Whether the answer of a URL is kept from a page's requests in mode no-cors (Fetch, section
    /// 3.7, "cross-origin resource policy check", of the page's origin and the URL's).
    ///
    /// `OK` where it is kept from them; `NO`, which alone gives leave; `WRONG_HANDLE`; `NOT_A_URL`
    /// and `NOT_HTTP`, of the page or of the URL; `OUT_OF_MEMORY`.
    pub fn fiorrudda_resource_policy(
        page: *const u8,
        page_len: usize,
        url: *const u8,
        url_len: usize,
        headers: *mut Handle,
    ) -> u32;

    /// Writes the referrer that a policy tells the URL `target` of the page `source` at the
    /// beginning of `room`, with no NUL after it, and tells in `len` how many bytes it is (Referrer
    /// Policy, section 8.3, "determine request's Referrer"). The policy is one of the numbers
    /// `REFERRER_..`.
    ///
    /// `OK`; `NO` where none is told; `TOO_SHORT` where `room` has less than `len` bytes;
    /// `NO_SUCH_NUMBER`; `NOT_A_URL` and `NOT_HTTP`, of the page or of the URL; `OUT_OF_MEMORY`.
    /// But for `OK` nothing is written to `room`, and but for `OK` and `TOO_SHORT` nothing to
    /// `len`.
    pub fn fiorrudda_referrer(
        policy: u32,
        source: *const u8,
        source_len: usize,
        target: *const u8,
        target_len: usize,
        room: *mut u8,
        room_len: usize,
        len: *mut usize,
    ) -> u32;

    /// Whether a whole body matches an integrity text (Subresource Integrity, section 3.3, "do
    /// bytes match metadataList"). A text without valid metadata matches every body.
    ///
    /// `OK` where it matches; `NO`; `OUT_OF_MEMORY`.
    pub fn fiorrudda_integrity(
        metadata: *const u8,
        metadata_len: usize,
        body: *const u8,
        body_len: usize,
    ) -> u32;

    /// Begins in a handle the fetch of a request for a client, at a time in seconds since any fixed
    /// moment, with bodies of at most `limit` bytes (Fetch, section 4.1, "main fetch"). Nothing is
    /// kept of the client and the request: each may be used again. What the handle held is freed.
    /// The fetch is then done by a loop over its acts: `fiorrudda_act` says what is to be done, and
    /// a call tells what came of it, until it is `ACT_OVER`.
    ///
    /// `OK`; `WRONG_HANDLE`; `NO_REQUEST` where no request can be made of it: `fault` is then the
    /// reason, one of the numbers `FAULT_..`, and `header` the index of a header that is none
    /// (Fetch, sections 5.4 and 5.6); `TOO_LATE`; `OUT_OF_MEMORY`. Except for `OK` the handle holds
    /// what it held, and except for `NO_REQUEST` nothing is written.
    pub fn fiorrudda_fetch(
        fetch: *mut Handle,
        client: *mut Handle,
        request: *mut Handle,
        now: u64,
        limit: u32,
        fault: *mut u32,
        header: *mut u32,
    ) -> u32;

    /// Tells in `act` what a fetch does next (Fetch, section 4), by one of the numbers `ACT_..`.
    /// `fiorrudda_text` and `fiorrudda_number` have the act's parts, or those of the outcome of a
    /// fetch that is over.
    ///
    /// `OK`; `WRONG_HANDLE`, and then nothing is written.
    pub fn fiorrudda_act(fetch: *mut Handle, act: *mut u32) -> u32;

    /// Writes a text that the act of a fetch has, or its outcome, at the beginning of `room`, with
    /// no NUL after it, and tells in `len` how many bytes it is. The text is one of the numbers
    /// `TEXT_..`; of a list it is that at the index `at`.
    ///
    /// `OK`; `NO` where there is none; `TOO_SHORT` where `room` has less than `len` bytes;
    /// `WRONG_HANDLE`; `NO_SUCH_NUMBER`. But for `OK` nothing is written to `room`, and but for
    /// `OK` and `TOO_SHORT` nothing to `len`.
    pub fn fiorrudda_text(
        fetch: *mut Handle,
        which: u32,
        at: usize,
        room: *mut u8,
        room_len: usize,
        len: *mut usize,
    ) -> u32;

    /// Tells a number that the act of a fetch has, or its outcome: one of the numbers `NUMBER_..`.
    ///
    /// `OK`; `NO` where there is none; `WRONG_HANDLE`; `NO_SUCH_NUMBER`. But for `OK` nothing is
    /// written.
    pub fn fiorrudda_number(fetch: *mut Handle, which: u32, number: *mut u64) -> u32;

    /// Writes all bytes of the request that a fetch sends (RFC 9112, section 3) at the beginning of
    /// `room`, and tells in `len` how many they are. They are for the server of `TEXT_ORIGIN`, over
    /// a connection of their own.
    ///
    /// `OK`; `NO` where nothing is sent; `TOO_SHORT` where `room` has less than `len` bytes;
    /// `WRONG_HANDLE`; `OUT_OF_MEMORY`. But for `OK` nothing is written to `room`, and but for `OK`
    /// and `TOO_SHORT` nothing to `len`.
    pub fn fiorrudda_to_send(
        fetch: *mut Handle,
        room: *mut u8,
        room_len: usize,
        len: *mut usize,
    ) -> u32;

    /// Tells a fetch what came of its act (Fetch, section 4), by one of the numbers `INPUT_..`.
    /// `INPUT_SENT` follows `ACT_SEND`; `INPUT_TOLD` follows `ACT_TELL`; `INPUT_ENDED` follows
    /// `ACT_READ_HEAD` and `ACT_READ_BODY`; `INPUT_FAILED` follows these three; `INPUT_YES` and
    /// `INPUT_NO` follow `ACT_ASK` where it is a question, and `INPUT_DONE` where not.
    ///
    /// `OK`; `NOT_AWAITED` where it does not follow, and then the fetch stands where it stood;
    /// `WRONG_HANDLE`; `NO_SUCH_NUMBER`; `OUT_OF_MEMORY`, and then the fetch is gone: its act is
    /// `ACT_GONE`.
    pub fn fiorrudda_input(fetch: *mut Handle, input: u32) -> u32;

    /// Hands a fetch the next bytes of the answer, in any piece, be it empty, and tells in `used`
    /// how many of them were read (RFC 9112, sections 4, 6 and 7). Where a head ends in the piece,
    /// the bytes behind it are not read: they are the first of the body, and are handed in again
    /// when the act is `ACT_READ_BODY`, even if there are none; `ACT_ASK` and `ACT_TELL` may come
    /// before. At `ACT_SEND` and `ACT_OVER` unread bytes are of no use, and the connection is
    /// closed.
    ///
    /// `OK`; `NOT_AWAITED` where no bytes are read now, and then the fetch stands where it stood;
    /// `WRONG_HANDLE`; `OUT_OF_MEMORY`, and then the fetch is gone: its act is `ACT_GONE`. But for
    /// `OK` none are read; for `WRONG_HANDLE` nothing is written.
    pub fn fiorrudda_feed(
        fetch: *mut Handle,
        bytes: *const u8,
        bytes_len: usize,
        used: *mut usize,
    ) -> u32;

    /// Has a fetch ask a book what its act asks for, or tell it that, and goes on from what the
    /// book replies, which is told in `reply`: `INPUT_YES`, `INPUT_NO` or `INPUT_DONE` (Fetch,
    /// section 4.9; RFC 6797, section 8). Threads that share the book hold one common lock around
    /// each call that takes it.
    ///
    /// `OK`; `NOT_AWAITED` where the act asks no book, and then the fetch stands where it stood and
    /// the book is as it was; `WRONG_HANDLE`; `OUT_OF_MEMORY`, and then the fetch is lost: its act
    /// is `ACT_GONE`. Then the book may have done what it was asked, and `reply` is told; else the
    /// book is as it was, and nothing is written to `reply`: set it to 0 before the call. With
    /// `NOT_AWAITED` and `WRONG_HANDLE` nothing is written to it.
    pub fn fiorrudda_ask(fetch: *mut Handle, book: *mut Handle, reply: *mut u32) -> u32;

    /// Has a fetch go on without the network: it asks the book, and its document is told of
    /// violations, until it must send or read, or is over (Fetch, section 4.1, "main fetch"). So
    /// behind `fiorrudda_fetch` it says what a browser would make of the request, and behind
    /// `fiorrudda_feed` what it would make of the answer. `act` is then what `fiorrudda_act` tells:
    /// at `ACT_SEND` `TEXT_ORIGIN` and `TEXT_URL` are the URL after upgrades, and the headers are
    /// those of the request, Origin, Referer and Cookie among them, or of a preflight that goes
    /// first; at `ACT_OVER` `NUMBER_ERROR` is the refusal. The violations on the way, report-only
    /// ones too, are held by `violations`, and what it held is freed. The calls of the book are not
    /// told. Threads that share the book hold one common lock around each call that takes it.
    ///
    /// `OK`; `WRONG_HANDLE`, of the fetch or the book; `OUT_OF_MEMORY`, and then the fetch is
    /// freed, and the book may have done what it was asked on the way. Except for `OK` nothing else
    /// is changed. A call that comes to no end in 65,536 acts ends at `ACT_ASK` or `ACT_TELL`, and
    /// is to be made again: `violations` has those since the call before.
    pub fn fiorrudda_judge(
        fetch: *mut Handle,
        book: *mut Handle,
        violations: *mut Handle,
        act: *mut u32,
    ) -> u32;

    /// Makes in a handle the policies of a header list, parsed and read once (CSP 3, section 2.2,
    /// "parse a response's Content Security Policies"): those of Content-Security-Policy, which are
    /// enforced, and then those of Content-Security-Policy-Report-Only. They are numbered from 0 on
    /// in this order. What the handle held is freed.
    ///
    /// `OK`; `WRONG_HANDLE`, of the header list; `OUT_OF_MEMORY`. Except for `OK` the handle holds
    /// what it held.
    pub fn fiorrudda_policies(policies: *mut Handle, headers: *mut Handle) -> u32;

    /// Whether an enforced policy has `upgrade-insecure-requests`: the page's requests for http
    /// URLs are then made for https ones (Upgrade Insecure Requests, section 4.1, "upgrade request
    /// to a potentially trustworthy URL, if appropriate").
    ///
    /// `OK` where one has; `NO`, which alone leaves an http URL as it is; `WRONG_HANDLE`.
    pub fn fiorrudda_upgrades(policies: *mut Handle) -> u32;

    /// Makes in a handle the header list that a page sees of an answer to its request, and tells in
    /// `seen` the status that it sees: those of the filtered response by one of the numbers
    /// `TAINTING_..` (Fetch, section 2.2.6). Basic hides Set-Cookie; of CORS the safelisted and the
    /// exposed headers are seen, by the request's credentials mode; of opaque nothing, and its
    /// status is 0. So is it with a redirect in redirect mode manual, by any of the numbers: it is
    /// an opaque-redirect filtered response. What the handle held is freed.
    ///
    /// `OK`; `NO_SUCH_NUMBER`; `WRONG_HANDLE`, of the client, the request or the header list;
    /// `NO_REQUEST` where none can be made of what is asked for; `OUT_OF_MEMORY`. Except for `OK`
    /// the handle holds what it held, and nothing is written.
    pub fn fiorrudda_filtered(
        filtered: *mut Handle,
        client: *mut Handle,
        request: *mut Handle,
        headers: *mut Handle,
        status: u16,
        tainting: u32,
        seen: *mut u32,
    ) -> u32;

    /// Whether an answer to a request is blocked for its MIME type, by its header list: one of a
    /// script that is audio, image, video or CSV (Fetch, section 2.10, "should response to request
    /// be blocked due to its MIME type").
    ///
    /// `OK` where it is blocked; `NO`, which alone gives leave; `WRONG_HANDLE`; `OUT_OF_MEMORY`.
    pub fn fiorrudda_type_blocked(request: *mut Handle, headers: *mut Handle) -> u32;

    /// Whether an answer to a request is blocked since it says nosniff, by its header list: one of
    /// a script that is no JavaScript, or of a style that is not `text/css` (Fetch, section 3.6.1,
    /// "should response to request be blocked due to nosniff").
    ///
    /// `OK` where it is blocked; `NO`, which alone gives leave; `WRONG_HANDLE`; `OUT_OF_MEMORY`.
    pub fn fiorrudda_nosniff_blocked(request: *mut Handle, headers: *mut Handle) -> u32;

    /// Whether a client's request is upgraded as mixed content: for an image, audio or video of a
    /// page that is potentially trustworthy, http becomes https (Mixed Content, section 4.1,
    /// "upgrade a mixed content request to a potentially trustworthy URL, if appropriate").
    /// `redirect` is the URL to which the request was redirected, or empty.
    ///
    /// `OK` where it is upgraded; `NO`, which alone leaves an http URL as it is; `WRONG_HANDLE`;
    /// `NO_REQUEST` where none can be made of what is asked for, or nothing redirects it;
    /// `NOT_A_URL` and `NOT_HTTP`, of `redirect`; `OUT_OF_MEMORY`.
    pub fn fiorrudda_mixed_upgraded(
        client: *mut Handle,
        request: *mut Handle,
        redirect: *const u8,
        redirect_len: usize,
    ) -> u32;

    /// Whether a client's request is blocked as mixed content (Mixed Content, section 4.4, "should
    /// fetching request be blocked as mixed content?"). Ask first whether it is upgraded: one that
    /// is, is not blocked. `redirect` is the URL to which the request was redirected, or empty.
    ///
    /// `OK` where it is blocked; `NO`, which alone gives leave; and the other codes of
    /// `fiorrudda_mixed_upgraded`.
    pub fn fiorrudda_mixed_blocked(
        client: *mut Handle,
        request: *mut Handle,
        redirect: *const u8,
        redirect_len: usize,
    ) -> u32;

    /// Makes in a handle the violations of policies by a client's request, or by its response: one
    /// of the numbers `CHECK_..` (CSP 3, section 4.1, "should request be blocked by Content
    /// Security Policy?", "report Content Security Policy violations for request" and "should
    /// response to request be blocked by Content Security Policy?"). They are in the order of the
    /// policies. `redirect` is the URL to which the request was redirected, or empty. What the
    /// handle held is freed.
    ///
    /// `OK` where nothing is violated; `NO` where something is; `NO_SUCH_NUMBER`; `WRONG_HANDLE`,
    /// of the policies, the client or the request; `NO_REQUEST` where none can be made of what is
    /// asked for, or nothing redirects it; `NOT_A_URL` and `NOT_HTTP`, of `redirect`;
    /// `OUT_OF_MEMORY`. Except for `OK` and `NO` the handle holds what it held.
    ///
    /// A response is blocked where `fiorrudda_violation` tells `enforced` 1 of one of the
    /// violations: report-only ones never block, though the code is `NO` for them. The client's own
    /// policies are not asked. A request that a policy or Mixed Content upgrades is to be asked
    /// with its https URL.
    pub fn fiorrudda_check(
        violations: *mut Handle,
        policies: *mut Handle,
        client: *mut Handle,
        request: *mut Handle,
        redirect: *const u8,
        redirect_len: usize,
        check: u32,
    ) -> u32;

    /// Tells of the violation (CSP 3, section 2.4) at an index, from 0 on, the number of the policy
    /// in `policy`, and 1 in `enforced` where that is enforced, or 0.
    ///
    /// `OK`; `NO` behind the last; `WRONG_HANDLE`. But for `OK` nothing is written.
    pub fn fiorrudda_violation(
        violations: *mut Handle,
        at: usize,
        policy: *mut u32,
        enforced: *mut u32,
    ) -> u32;

    /// Writes the effective directive of the violation at an index, as `img-src`, at the beginning
    /// of `room`, with no NUL after it, and tells in `len` how many bytes it is (CSP 3, section
    /// 6.8.1, "get the effective directive for request").
    ///
    /// `OK`; `NO` behind the last; `TOO_SHORT` where `room` has less than `len` bytes;
    /// `WRONG_HANDLE`. But for `OK` nothing is written to `room`, and but for `OK` and `TOO_SHORT`
    /// nothing to `len`.
    pub fn fiorrudda_violation_directive(
        violations: *mut Handle,
        at: usize,
        room: *mut u8,
        room_len: usize,
        len: *mut usize,
    ) -> u32;

    /// Writes the URL that is reported of the violation at an index, as
    /// `fiorrudda_violation_directive` its directive: the request's first URL without user name,
    /// password and fragment (CSP 3, section 5.4, "strip URL for use in reports").
    ///
    /// The codes are the same.
    pub fn fiorrudda_violation_url(
        violations: *mut Handle,
        at: usize,
        room: *mut u8,
        room_len: usize,
        len: *mut usize,
    ) -> u32;

    /// Writes the name of the header at an index of a list (Fetch, section 2.2.2), from 0 on, at
    /// the beginning of `room`, with no NUL after it, and tells in `len` how many bytes it is.
    ///
    /// `OK`; `NO` behind the last; `TOO_SHORT` where `room` has less than `len` bytes;
    /// `WRONG_HANDLE`. But for `OK` nothing is written to `room`, and but for `OK` and `TOO_SHORT`
    /// nothing to `len`.
    pub fn fiorrudda_name_at(
        headers: *mut Handle,
        at: usize,
        room: *mut u8,
        room_len: usize,
        len: *mut usize,
    ) -> u32;

    /// Writes the value of the header at an index of a list (Fetch, section 2.2.2), as
    /// `fiorrudda_name_at` its name.
    ///
    /// The codes are the same.
    pub fn fiorrudda_value_at(
        headers: *mut Handle,
        at: usize,
        room: *mut u8,
        room_len: usize,
        len: *mut usize,
    ) -> u32;

    /// Writes one of the CORS-unsafe request-header names of a list, at an index from 0 on, at the
    /// beginning of `room`, with no NUL after it, and tells in `len` how many bytes it is (Fetch,
    /// section 2.2.2). They are in lower case, each once, and ascend by their bytes: those of which
    /// a preflight asks.
    ///
    /// `OK`; `NO`, which alone says that there are no more, behind the last; `TOO_SHORT` where
    /// `room` has less than `len` bytes; `WRONG_HANDLE`; `OUT_OF_MEMORY`. But for `OK` nothing is
    /// written to `room`, and but for `OK` and `TOO_SHORT` nothing to `len`.
    pub fn fiorrudda_unsafe_name(
        headers: *mut Handle,
        at: usize,
        room: *mut u8,
        room_len: usize,
        len: *mut usize,
    ) -> u32;

    /// Writes one of the names that an answer's header list exposes to a page of another origin, at
    /// an index from 0 on, at the beginning of `room`, with no NUL after it, and tells in `len` how
    /// many bytes it is (Fetch, section 2.2.6, "CORS-exposed header-name list"). With `*` all names
    /// of the list are exposed, unless the credentials mode is include, which `include` tells. A
    /// page sees the safelisted names, as Content-Type, without their being named, and never
    /// Set-Cookie, even where it is named here: `fiorrudda_filtered` has what it sees.
    ///
    /// `OK`; `NO` behind the last; `TOO_SHORT` where `room` has less than `len` bytes;
    /// `WRONG_HANDLE`; `OUT_OF_MEMORY`. But for `OK` nothing is written to `room`, and but for `OK`
    /// and `TOO_SHORT` nothing to `len`.
    pub fn fiorrudda_exposed_name(
        headers: *mut Handle,
        include: bool,
        at: usize,
        room: *mut u8,
        room_len: usize,
        len: *mut usize,
    ) -> u32;

    /// Whether a name and a value are a forbidden request-header, which no script can set (Fetch,
    /// section 2.2.2).
    ///
    /// `OK` where they are; `NO`, which alone gives leave; `NOT_A_HEADER`; `OUT_OF_MEMORY`.
    pub fn fiorrudda_forbidden_header(
        name: *const u8,
        name_len: usize,
        value: *const u8,
        value_len: usize,
    ) -> u32;

    /// Writes all bytes of the CORS-preflight request of a client's request at the beginning of
    /// `room`, and tells in `len` how many they are (Fetch, section 4.1, "main fetch", step 12, and
    /// section 4.8, "CORS-preflight fetch"; RFC 9112, section 3). They are for the server of the
    /// request's URL. No book is asked, and no policy.
    ///
    /// It is not looked at whether main fetch blocks the request before, by its port, as mixed
    /// content or by a policy, or upgrades its URL.
    ///
    /// `OK`; `NO`, which alone gives leave to send none, where the request's mode, method and
    /// headers ask for no preflight; `TOO_SHORT` where `room` has less than `len` bytes;
    /// `WRONG_HANDLE`; `NO_REQUEST` where none can be made of what is asked for; `NOT_HTTP`, of its
    /// URL; `OUT_OF_MEMORY`. But for `OK` nothing is written to `room`, and but for `OK` and
    /// `TOO_SHORT` nothing to `len`.
    pub fn fiorrudda_preflight(
        client: *mut Handle,
        request: *mut Handle,
        room: *mut u8,
        room_len: usize,
        len: *mut usize,
    ) -> u32;

    /// Tells the verdict on an answer to the preflight of a client's request, of a status and a
    /// header list (Fetch, section 4.8, "CORS-preflight fetch", steps 7 and 8): for a pass, in
    /// `age`, for how many seconds the preflight cache learns it; for a refusal, in `error`, the
    /// network error, one of the numbers `ERROR_PREFLIGHT_..`. It also answers where the request
    /// asks for no preflight.
    ///
    /// `OK` where it passes; `NO` where it is refused; `WRONG_HANDLE`; `NO_REQUEST` where none can
    /// be made of what is asked for; `OUT_OF_MEMORY`. But for `OK` nothing is written to `age`, and
    /// but for `NO` nothing to `error`.
    pub fn fiorrudda_verdict(
        client: *mut Handle,
        request: *mut Handle,
        headers: *mut Handle,
        status: u16,
        error: *mut u32,
        age: *mut u64,
    ) -> u32;

    /// Writes the name of the header, in lower case, for which an answer to the preflight of a
    /// client's request is refused, at the beginning of `room`, with no NUL after it, and tells in
    /// `len` how many bytes it is (Fetch, section 4.8, "CORS-preflight fetch", steps 7.6 and 7.7):
    /// where `fiorrudda_verdict` tells `ERROR_PREFLIGHT_HEADER`.
    ///
    /// `OK`; `NO` where it is not refused for a header; `TOO_SHORT` where `room` has less than
    /// `len` bytes; `WRONG_HANDLE`; `NO_REQUEST` where none can be made of what is asked for;
    /// `OUT_OF_MEMORY`. But for `OK` nothing is written to `room`, and but for `OK` and `TOO_SHORT`
    /// nothing to `len`.
    pub fn fiorrudda_refused_name(
        client: *mut Handle,
        request: *mut Handle,
        headers: *mut Handle,
        status: u16,
        room: *mut u8,
        room_len: usize,
        len: *mut usize,
    ) -> u32;

    /// Writes the text of a book, which `fiorrudda_book_of_text` reads back as the same book, so
    /// that what it knows lasts over restarts: a line with its name and the number of its format,
    /// the known hosts, and the entries of the preflight cache. Its times are in seconds since the
    /// moment that the calls counted from, which is 1970 for a book that lasts. It has bytes of any
    /// kind, tells which servers were asked, and is not signed: who can change it can change what
    /// the book knows. Threads that share the book hold one common lock around each call that takes
    /// it, and around both calls where the first asks for the length.
    ///
    /// `OK`; `TOO_SHORT` where `room` has less than `len` bytes; `WRONG_HANDLE`; `OUT_OF_MEMORY`.
    /// But for `OK` nothing is written to `room`, and but for `OK` and `TOO_SHORT` nothing to
    /// `len`. The book is as it was.
    pub fn fiorrudda_book_text(
        book: *mut Handle,
        room: *mut u8,
        room_len: usize,
        len: *mut usize,
    ) -> u32;

    /// Makes in a handle the book whose text this is, as `fiorrudda_book_text` writes it, and frees
    /// what the handle held. Nothing is read of a text that is not that of a book: `line` tells its
    /// first line that is not as such a text has it, counted from 1, and `reason` why, by
    /// `REASON_NO_BOOK` to `REASON_TOO_LONG`. A line ends behind its last field, so that an LF
    /// within a name or a URL ends no line. Threads that share the book hold one common lock around
    /// each call that takes it, this one too.
    ///
    /// `OK`; `NO`, where the text is refused; `OUT_OF_MEMORY`. Except for `OK` the handle holds
    /// what it held. `line` and `reason` are told with `NO` alone.
    pub fn fiorrudda_book_of_text(
        book: *mut Handle,
        text: *const u8,
        text_len: usize,
        line: *mut u64,
        reason: *mut u32,
    ) -> u32;

    /// Audits a text that claims to be the printed play of a scenario over its own servers, as
    /// `playaudit` does: which history it holds, whether the book gives it, and whether each
    /// document's run makes just these calls and prints this text. Both are bytes of any length.
    /// Writes the line of the verdict: `play`, or `not a play: ` with the verdict's name and value.
    ///
    /// `OK` where the text is a play of the scenario; `NO` where it is not, or the scenario is
    /// refused; `TOO_SHORT` where `room` has less than `len` bytes for the line; `OUT_OF_MEMORY`.
    /// Except for `OK` and `NO` nothing is written to `room`, and with `OUT_OF_MEMORY` nothing to
    /// `len`.
    pub fn fiorrudda_audit(
        scenario: *const u8,
        scenario_len: usize,
        play: *const u8,
        play_len: usize,
        room: *mut u8,
        room_len: usize,
        len: *mut usize,
    ) -> u32;

    /// Plays a scenario over its own servers, from its own time on: its documents one after
    /// another, over one book, with no thread. Writes the text of that play, as `fetchplay play`
    /// writes one. The scenario is the bytes of its JSON, of any length. A call with too little
    /// room plays too, and the next call plays again.
    ///
    /// `OK`; `NO` where the scenario is refused, and then `room` has the place: `json`, or the way
    /// from the root to the value, as `/documents/0/url`; `TOO_SHORT` where `room` has less than
    /// `len` bytes for either; `OUT_OF_MEMORY`. Except for `OK` and `NO` nothing is written to
    /// `room`, and with `OUT_OF_MEMORY` nothing to `len`.
    pub fn fiorrudda_play(
        scenario: *const u8,
        scenario_len: usize,
        room: *mut u8,
        room_len: usize,
        len: *mut usize,
    ) -> u32;

    /// Plays a scenario of at most 16 documents over its own servers, as `fiorrudda_play`, and then
    /// delivers the reports of each document's violations, in order of documents. Writes the text
    /// of the reports, as `cspreport play` writes one. A call with too little room plays too, and
    /// the next call plays again.
    ///
    /// `OK`; `NO` where the scenario is refused, and then `room` has the place: `json`, or the way
    /// from the root to the value, which is `/documents` where there are too many; `TOO_SHORT`
    /// where `room` has less than `len` bytes for either; `OUT_OF_MEMORY`. Except for `OK` and `NO`
    /// nothing is written to `room`, and with `OUT_OF_MEMORY` nothing to `len`.
    pub fn fiorrudda_reports(
        scenario: *const u8,
        scenario_len: usize,
        room: *mut u8,
        room_len: usize,
        len: *mut usize,
    ) -> u32;
}
