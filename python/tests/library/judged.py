"""What a browser makes of requests and answers: by what was worked out by hand, and by the acts of a fetch."""
from __future__ import annotations

import copy
import itertools
import multiprocessing
import pickle
import unittest
from typing import Iterator, Mapping, Union

import fiorrudda as f

Asked = Union[f.Request, f.Load]

PAGE = f.Client("https://app.example/p", policies=f.Policies(
    ["img-src 'self'; upgrade-insecure-requests", "script-src 'nonce-n'"], ["connect-src 'none'"]),
    cookies={"https://app.example": "secret=1", "https://api.example": "secret=2"})
PLAIN = f.Client("http://app.example/")
OTHER = f.Client("https://app.example/")
STAR = {"Access-Control-Allow-Origin": "*"}
PUT = f.Request("https://api.example/d", "PUT", headers={"X-B": "1", "X-A": "1", "Authorization": "secret=3"})
ALLOWED = {**STAR, "Access-Control-Allow-Methods": "PUT", "Access-Control-Allow-Headers": "x-a, x-b, authorization"}


def sends_of(act: f.Send) -> f.Sends:
    """What is sent, of the parts of an act."""
    sends = f.Sends.of_request(act.origin.encode(), act.request)
    if (sends.url, sends.method, sends.headers) != (act.origin + act.url, act.method, act.headers):
        raise AssertionError(act)
    return sends


def by_acts(client: f.Client, request: Asked, book: f.Book, now: int = 0) -> f.Judged:
    """What `judge` says, by the acts of a fetch, one after another."""
    fetch, told = f.Fetch(client, request, now), []
    for act in fetch:
        if isinstance(act, f.Ask):
            fetch.ask(book)
        elif isinstance(act, f.Tell):
            told.append(f.Violation(*act))
            fetch.told()
        else:
            return f.Judged(sends_of(act), None, tuple(told))
    return f.Judged(None, fetch.outcome, tuple(told))


def drawn() -> Iterator[tuple[f.Client, Asked, f.Book | None]]:
    """Clients, requests and books of many kinds, each with each."""
    book = f.Book()
    book.note("api.example", "max-age=10; includeSubDomains", 0)
    urls = ["/own", "http://app.example/i", "https://api.example/d", "http://api.example/", "http://127.0.0.1/",
            "data:,x", "https://app.example:25/", "http://["]
    asked: list[Asked] = [f.Load(kind, url, nonce=nonce) for kind in ("image", "script", "font") for url in urls
                          for nonce in ("", "n")]
    asked += [f.Request(url, method, credentials=credentials, mode=mode) for url in urls for method in ("GET", "PUT")
              for credentials in ("omit", "include") for mode in ("cors", "no-cors", "same-origin")
              if (method, mode) != ("PUT", "no-cors")]
    return itertools.product((PAGE, PLAIN, OTHER), asked, (None, book))


def told_of(judged: object) -> object:
    return type(judged).__name__ if isinstance(judged, f.FiorruddaError) else judged


class Judging(unittest.TestCase):
    def test_an_image_is_upgraded_before_a_policy_is_asked(self) -> None:
        """A policy that is asked alone would forbid it."""
        image = f.Load("image", "http://app.example/i#f")
        self.assertEqual(len(f.Policies(["img-src 'self'"]).violations(PAGE, image)), 1)
        judged = f.judge(PAGE, image)
        self.assertEqual((judged.sends.url, judged.sends.method), ("https://app.example/i", "GET"))
        self.assertEqual((judged.refusal, judged.violations), (None, ()))
        self.assertEqual((judged.sends.preflight, judged.sends.origin), (None, None))
        self.assertEqual((judged.sends.referrer, judged.sends.cookies), ("https://app.example/p", b"secret=1"))

    def test_a_refusal_has_its_violations(self) -> None:
        judged = f.judge(PAGE, f.Load("image", "https://ads.example/i"))
        self.assertIsNone(judged.sends)
        self.assertEqual(judged.refusal, f.NetworkError(4, "CspRequest", None))
        self.assertEqual(judged.violations, (f.Violation(0, True, "img-src", "https://ads.example/i"),))
        for url, mode, name in (
            ("http://api.example/", "cors", "Mixed"), ("https://app.example:25/", "cors", "BadPort"),
            ("data:,x", "cors", "Scheme"), ("https://api.example/", "same-origin", "SameOriginMode"),
        ):
            self.assertEqual(f.judge(OTHER, f.Request(url, mode=mode)).refusal.name, name)

    def test_a_preflight_goes_first(self) -> None:
        judged = f.judge(PAGE, PUT)
        self.assertEqual((judged.sends.url, judged.sends.method), ("https://api.example/d", "OPTIONS"))
        self.assertEqual(judged.sends.preflight, f.Preflight("PUT", ("authorization", "x-a", "x-b")))
        self.assertEqual((judged.sends.origin, judged.sends.cookies), ("https://app.example", None))
        self.assertEqual([(it.enforced, it.directive) for it in judged.violations], [(False, "connect-src")])
        self.assertEqual(f.judge(PAGE, f.Request("https://api.example/", "POST")).sends.preflight, None)

    def test_a_book_is_asked_and_stays(self) -> None:
        book = f.Book()
        book.note("app.example", "max-age=10", 0)
        text = book.export()
        self.assertEqual([f.judge(PLAIN, f.Request("/x"), book, now).sends.url for now in (0, 9, 10)],
                         ["https://app.example/x", "https://app.example/x", "http://app.example/x"])
        f.judge_many([(client, asked, book) for client, asked, _ in drawn()])
        self.assertEqual(book.export(), text)
        self.assertRaises(f.TooLate, f.judge, PLAIN, f.Request("/"), None, 2**48)
        self.assertRaises(f.NoRequest, f.judge, PLAIN, f.Request("http://["))

    def test_it_is_what_the_acts_come_to(self) -> None:
        triples = list(drawn())
        for triple, judged in zip(triples, f.judge_many(triples)):
            client, asked, book = triple
            wanted: object
            try:
                wanted = by_acts(client, asked, f.Book() if book is None else book)
            except f.NoRequest as error:
                wanted = error
            self.assertEqual(told_of(judged), told_of(wanted))

    def test_many_answer_as_one_by_one(self) -> None:
        triples = [it for it in drawn() if "[" not in repr(it[1])]
        self.assertEqual(f.judge_many(iter(triples), 9), [f.judge(*it, 9) for it in triples])
        came = f.judge_many([(PAGE, f.Request("http://["), None), (PAGE, PUT, None)])
        self.assertEqual((type(came[0]), came[0].name, type(came[1])), (f.NoRequest, "BadUrl", f.Judged))
        self.assertEqual(f.judge_many([]), [])
        long = f.Request("/" + "x" * 8000, headers=[("X-A", "y" * 9000)])
        self.assertEqual(len(f.judge(PAGE, long).sends.url), 8020)

    def test_processes_of_multiprocessing_answer_the_same(self) -> None:
        triples = list(drawn())[:200]
        with multiprocessing.get_context("spawn").Pool(2) as pool:
            came = pool.map(f.judge_many, [triples[:100], triples[100:]])
        self.assertEqual([told_of(it) for part in came for it in part], list(map(told_of, f.judge_many(triples))))

    def test_what_it_gives_is_a_value_that_shows_no_secret(self) -> None:
        for value in (f.judge(PAGE, PUT), f.judge(PAGE, f.Load("image", "/i")),
                      f.judge(PAGE, f.Load("image", "https://b.example/")),
                      f.judge_answer(PAGE, f.Request("/"), 200, {"X-Secret": "secret"}, "secret"),
                      f.judge_answer(PAGE, f.Request("/"), 302, {"Location": "/n"})):
            for again in (pickle.loads(pickle.dumps(value)), copy.copy(value), copy.deepcopy(value)):
                self.assertEqual(again, value)
            self.assertNotIn("secret", repr(value).lower())
        self.assertEqual(
            repr(f.judge(PAGE, PUT)), "Judged(sends=Sends('https://api.example/d', 'OPTIONS', preflight=Preflight("
            "method='PUT', names=('authorization', 'x-a', 'x-b'))), refusal=None, violations=(Violation(policy=2, "
            "enforced=False, directive='connect-src', url='https://api.example/d'),))")
        self.assertIn(hash(f.judge(PAGE, PUT)), {hash(f.judge(PAGE, PUT))})


class Answers(unittest.TestCase):
    def test_who_may_read(self) -> None:
        asked = f.Request("https://api.example/d")
        coded = {"Content-Length": "99", "Content-Encoding": "gzip", "Content-Type": "text/csv"}
        exposed = {"X-A": "1", "Access-Control-Expose-Headers": "content-encoding"}
        read = f.judge_answer(PAGE, asked, 201, {**STAR, **coded, **exposed}, "hello")
        self.assertTrue(read.readable)
        self.assertEqual(read.seen[:3] + read.seen[4:], ("cors", 201, "https://api.example/d", "whole", 5, b"hello"))
        self.assertEqual(read.seen.headers, f.Headers(coded).pairs())
        self.assertEqual((read.refusal, read.sends), (None, None))
        self.assertEqual([it.url for it in read.violations], ["https://api.example/d"] * 2)  # the request, the response
        kept = f.judge_answer(PAGE, asked, 200, {})
        self.assertEqual((kept.readable, kept.refusal, kept.seen), (False, f.NetworkError(12, "CorsCheck", None), None))
        with_cookies = f.Request("https://api.example/d", credentials="include")
        self.assertEqual(f.judge_answer(PAGE, with_cookies, 200, STAR).refusal.name, "CorsCheck")
        own = f.judge_answer(PAGE, f.Request("/"), 200, {"Set-Cookie": "a=b", "X-A": "1"})
        self.assertEqual((own.readable, own.seen.kind, own.seen.headers), (True, "basic", [(b"X-A", b"1")]))
        self.assertEqual((own.seen.body, own.seen.end, own.seen.count), (None, "cut", 0))

    def test_what_is_opaque_is_no_answer_to_read(self) -> None:
        asked = f.Request("https://api.example/", mode="no-cors")
        opaque = f.judge_answer(PAGE, asked, 200, {"X-A": "1"}, b"x")
        self.assertEqual((opaque.readable, opaque.refusal), (False, None))
        self.assertEqual(opaque.seen, f.Response("opaque", 0, None, [], "null", None, None))
        corp = {"Cross-Origin-Resource-Policy": "same-origin"}
        self.assertEqual(f.judge_answer(PAGE, asked, 200, corp).refusal.name, "Corp")
        manual = f.judge_answer(PAGE, f.Request("/", redirect="manual"), 302, {"Location": "/n"})
        self.assertEqual((manual.readable, manual.seen.kind, manual.sends), (False, "opaqueredirect", None))

    def test_loads_succeed_or_fail(self) -> None:
        script = f.Load("script", "/s", nonce="n")
        self.assertTrue(f.judge_answer(PAGE, script, 200, {"Content-Type": "text/javascript"}).readable)
        for headers, name in (({"Content-Type": "text/csv"}, "Mime"),
                              ({"Content-Type": "text/html", "X-Content-Type-Options": "nosniff"}, "NoSniff")):
            self.assertEqual(f.judge_answer(PAGE, script, 200, headers).refusal.name, name)
        metadata = "sha256-LPJNul+wow4m6DsqxbninhsWHlwfp0JecwQzYpOLmCQ="
        whole = f.Load("script", "/s", nonce="n", integrity=metadata)
        self.assertTrue(f.judge_answer(PAGE, whole, 200, {}, "hello").readable)
        self.assertEqual(f.judge_answer(PAGE, whole, 200, {}, "hullo").refusal.name, "Integrity")
        self.assertRaisesRegex(ValueError, "need the body", f.judge_answer, PAGE, whole, 200, {})
        self.assertEqual(f.judge_answer(PAGE, whole, 302, {"Location": "/n"}).sends.url, "https://app.example/n")

    def test_redirects_are_followed(self) -> None:
        asked = f.Request("http://app.example/a", "POST", body="x")
        first = (302, {"Location": "https://api.example/b"})
        moved = f.judge_answer(PAGE, asked, *first)
        self.assertEqual((moved.readable, moved.refusal, moved.seen), (False, None, None))
        self.assertEqual((moved.sends.url, moved.sends.method), ("https://api.example/b", "GET"))
        self.assertEqual(moved.sends.origin, "https://app.example")
        self.assertTrue(f.judge_answer(PAGE, asked, 200, STAR, "hi", redirects=[first]).readable)
        self.assertEqual(f.judge_answer(PAGE, asked, 200, {}, "hi", redirects=[first]).refusal.name, "CorsCheck")
        last = f.judge_answer(PAGE, asked, 200, STAR, "hi", redirects=[(307, {"Location": "/c"}), first])
        self.assertEqual(last.seen.url, "https://api.example/b")
        self.assertEqual([it.directive for it in last.violations], ["connect-src"] * 4)
        away = (302, {"Location": "data:,x"})
        self.assertEqual(f.judge_answer(PAGE, asked, *away).refusal.name, "RedirectScheme")
        self.assertEqual(f.judge_answer(PAGE, asked, 200, STAR, redirects=[away]).refusal.name, "RedirectScheme")
        with self.assertRaisesRegex(ValueError, "of the status 200, does not redirect"):
            f.judge_answer(PAGE, asked, 200, {}, redirects=[(200, {})])

    def test_a_preflight_counts_as_passed_or_is_answered(self) -> None:
        book = f.Book()
        self.assertTrue(f.judge_answer(PAGE, PUT, 200, STAR, "", book).readable)
        self.assertEqual(book.export(), f.Book().export())
        answered = f.judge_answer(PAGE, PUT, 200, STAR, "", book, preflight=(204, ALLOWED))
        self.assertTrue(answered.readable)
        self.assertIsNone(f.judge(PAGE, PUT, book).sends.preflight)
        for status, headers, refusal in ((404, ALLOWED, f.NetworkError(8, "PreflightStatus", None)),
                                         (204, {}, f.NetworkError(7, "PreflightCors", None)),
                                         (204, STAR, f.NetworkError(10, "PreflightMethod", None)),
                                         (204, {**ALLOWED, "Access-Control-Allow-Headers": "x-a"},
                                          f.NetworkError(11, "PreflightHeader", "authorization"))):
            refused = f.judge_answer(PAGE, PUT, 200, STAR, preflight=(status, headers))
            self.assertEqual((refused.readable, refused.refusal), (False, refusal))
        again = (307, {**STAR, "Location": "https://cdn.example/e"})
        self.assertEqual(f.judge_answer(PAGE, PUT, *again).sends.method, "OPTIONS")
        self.assertTrue(f.judge_answer(PAGE, PUT, 200, STAR, redirects=[again]).readable)
        self.assertTrue(f.judge_answer(PAGE, PUT, 200, STAR, redirects=[again], preflight=(200, ALLOWED)).readable)

    def test_a_book_learns_what_is_said(self) -> None:
        book = f.Book()
        says = {**STAR, "Strict-Transport-Security": "max-age=9"}
        f.judge_answer(PAGE, f.Request("https://api.example/"), 200, says, book=book, now=5)
        self.assertEqual((book.is_known("api.example", 13), book.is_known("api.example", 14)), (True, False))

    def test_a_request_that_is_refused_has_no_answer(self) -> None:
        refused = f.judge_answer(PAGE, f.Load("image", "https://ads.example/i"), 200, {}, redirects=[(302, {})])
        self.assertEqual((refused.refusal.name, len(refused.violations)), ("CspRequest", 1))
        self.assertRaises(f.NoRequest, f.judge_answer, PAGE, f.Request("http://["), 200, {})

    def test_heads_that_are_none(self) -> None:
        own = f.Request("/")
        self.assertEqual(f.judge_answer(PAGE, own, 100, {}, "x").refusal.name, "BadHead")
        self.assertEqual(f.judge_answer(PAGE, own, 200, [("X-A", "x")] * 129, "x").refusal.name, "BadHead")
        self.assertEqual(f.judge_answer(PAGE, own, 204, {"X-A": "1"}).seen.end, "null")
        self.assertRaises(f.NotAHeader, f.judge_answer, PAGE, own, 200, {"a b": "1"})
        for status in (-1, 1000):
            self.assertRaises(ValueError, f.judge_answer, PAGE, own, status, {})

    def test_it_is_what_the_acts_come_to(self) -> None:
        own = {"Access-Control-Allow-Origin": "https://app.example", "Access-Control-Allow-Credentials": "true"}
        heads = [(200, {}), (200, STAR), (302, {"Location": "https://api.example/n"}), (404, own),
                 (200, {"Content-Type": "text/csv", "X-Content-Type-Options": "nosniff"})]
        for client, asked, book in drawn():
            if book is None and "[" not in repr(asked):
                for status, headers in heads:
                    given = f.judge_answer(client, asked, status, headers, "hello", preflight=(204, ALLOWED))
                    self.assertEqual(given, answered_by_acts(client, asked, status, headers), (client, asked, status))


def answered_by_acts(client: f.Client, request: Asked, status: int, headers: Mapping[str, str]) -> f.Answered:
    """What `judge_answer` says, by the acts of a fetch, one after another."""
    fetch, book = f.Fetch(client, request), f.Book()
    told: list[f.Violation] = []
    answers, sends, left = [(status, headers)], None, b""
    for act in fetch:
        if isinstance(act, f.Ask):
            fetch.ask(book)
        elif isinstance(act, f.Tell):
            told.append(f.Violation(*act))
            fetch.told()
        elif isinstance(act, f.Send) and not answers:
            sends = sends_of(act)
            break
        elif isinstance(act, f.Send):
            code, fields = (204, ALLOWED) if act.preflight else answers.pop()
            lines = "".join(f"{name}: {value}\r\n" for name, value in fields.items())
            left = f"HTTP/1.1 {code}\r\n{lines}\r\nhello".encode()
            fetch.sent()
        elif left:
            left = left[fetch.feed(left):]
        else:
            fetch.ended()
    outcome = fetch.outcome
    seen = outcome if isinstance(outcome, f.Response) else None
    readable = isinstance(outcome, f.Loaded) or seen is not None and seen.kind in ("basic", "cors")
    refusal = outcome if isinstance(outcome, f.NetworkError) else None
    return f.Answered(readable, refusal, seen, sends, tuple(told))
