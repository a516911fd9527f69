"""Checks the Python module over the library that FIORRUDDA_LIBRARY names, or that bin/lib has left in out/. It plays
the gallery's scenarios, and those of the folders that PLAYS names, as NAME.json beside its play NAME.out: those of one
document by whole fetches, and all by `play`."""
from __future__ import annotations

import array
import copy
import doctest
import email
import importlib.util
import json
import multiprocessing
import os
import pathlib
import pickle
import re
import shutil
import subprocess
import sys
import tempfile
import threading
import types
import unittest
from typing import Any, Callable, Iterable, Optional, TypeVar

import fiorrudda as f
from fiorrudda import checks, engine, whole
from fiorrudda.places import ROOT
from tests.library import plays
from tests.library.judged import Answers, Asked, Judging  # noqa: F401  # which unittest finds here

TOP = pathlib.Path(ROOT)
HERE = TOP / "python"
It = TypeVar("It")


def header_numbers() -> dict[str, int]:
    """The constants of the C header by their names, without FIORRUDDA_."""
    header = (TOP / "include/fiorrudda.h").read_text()
    return {name: int(number) for name, number in re.findall(r"^#define FIORRUDDA_(\w+) (\d+)u", header, re.M)}


def upper(word: str) -> str:
    return re.sub(r"(?<!^)(?=[A-Z])", "_", word).replace("-", "_").upper()


class Rules(unittest.TestCase):
    def test_a_list_answers_by_the_standard(self) -> None:
        headers = f.Headers([("A", "1"), ("b", "2")])
        headers.append("a", b"\xff")
        self.assertEqual(headers.get("A"), b"1, \xff")
        self.assertIsNone(headers.get("C"))
        self.assertRaises(f.NotAHeader, headers.append, "a b", "1")

    def test_a_star_is_not_for_credentials(self) -> None:
        headers = f.Headers([("Access-Control-Allow-Origin", "*")])
        self.assertTrue(f.passes_cors_check("https://a.example", headers))
        self.assertFalse(f.passes_cors_check("https://a.example", headers, credentials=True))

    def test_a_resource_policy_keeps_from_other_sites(self) -> None:
        headers = [("Cross-Origin-Resource-Policy", "same-site")]
        self.assertTrue(f.keeps_from("https://a.test/", "https://b.example/", headers))
        self.assertFalse(f.keeps_from("https://a.b.example/", "https://b.example/", headers))

    def test_urls(self) -> None:
        self.assertEqual(f.origin("HTTPS://A.Example:443/p"), "https://a.example")
        self.assertRaises(f.NotHttp, f.origin, "data:,x")
        self.assertRaisesRegex(f.NotAUrl, "gives no URL by itself", f.origin, "/p")
        self.assertTrue(f.same_origin("https://a.example/", "https://a.example:443/x"))
        self.assertTrue(f.same_site("https://a.b.example/", "http://b.example/"))
        self.assertTrue(f.is_trustworthy("http://localhost/"))
        self.assertTrue(f.is_bad_port("http://a.example:25/"))

    def test_what_a_script_may_send(self) -> None:
        self.assertTrue(f.is_safelisted("Accept", "text/html"))
        self.assertFalse(f.is_safelisted("Content-Type", "application/json"))
        self.assertTrue(f.is_forbidden_method("trace"))

    def test_types_and_policies(self) -> None:
        headers = [("X-Content-Type-Options", "nosniff"), ("Content-Type", "Text/HTML;a=b")]
        self.assertTrue(f.says_nosniff(headers))
        self.assertEqual(f.essence(headers), "text/html")
        self.assertIsNone(f.essence([]))
        self.assertTrue(f.source_matches("https://*.example", "https://a.example/", "https://p.test/"))
        self.assertFalse(f.source_matches("'none'", "https://a.example/", "https://p.test/"))

    def test_referrers(self) -> None:
        page = "https://u:p@a.example/b?c#d"
        self.assertEqual(f.referrer(page, "https://b.example/"), "https://a.example/")
        self.assertIsNone(f.referrer(page, "http://b.example/"))
        self.assertEqual(f.referrer(page, "http://b.example/", f.ReferrerPolicy.UNSAFE_URL), "https://a.example/b?c")

    def test_integrity(self) -> None:
        text = "sha384-H8BRh8j48O9oYatfu5AZzq6A9RINhZO5H16dQZngK7T62em8MUt1FLm52t+eX6xO"
        self.assertTrue(f.matches_integrity(text, "alert('Hello, world.');"))
        self.assertFalse(f.matches_integrity(text, ""))

    def test_hosts(self) -> None:
        self.assertEqual(f.parse_sts("max-age=15768000 ; includeSubDomains"), f.Sts(15768000, True))
        self.assertIsNone(f.parse_sts("includeSubDomains"))
        book = f.Book()
        self.assertTrue(book.note("a.example", "max-age=10", 0))
        self.assertTrue(book.is_known("a.example", 9))
        self.assertFalse(book.is_known("a.example", 10))
        self.assertRaises(f.TooLate, book.is_known, "a.example", 2**48)

    def test_a_book_lasts_as_a_text(self) -> None:
        book = f.Book()
        self.assertEqual(book.export(), b"fiorrudda book 1\nhosts 0\nentries 0\n")
        book.note("a.example", "max-age=10; includeSubDomains", 0)
        text = book.export()
        self.assertEqual(text, b"fiorrudda book 1\nhosts 1\n10 1 9:a.example\nentries 0\n")
        again = f.Book.read(text)
        self.assertTrue(again.is_known("b.a.example", 9))
        self.assertEqual(again.export(), text)
        for cut in range(len(text)):
            self.assertRaises(f.NotABook, f.Book.read, text[:cut])
        with self.assertRaises(f.NotABook) as refused:
            f.Book.read(text.replace(b"book 1", b"book 2"))
        self.assertEqual((refused.exception.line, refused.exception.name), (1, "OtherFormat"))
        with self.assertRaises(f.NotABook) as refused:
            f.Book.read(text.replace(b"10 1", b"010 1"))
        self.assertEqual((refused.exception.line, refused.exception.name), (3, "BadLine"))

    def test_names_and_what_a_page_sees(self) -> None:
        page, asked = f.Client("https://a.example/"), f.Request("https://b.example/", "PUT", headers=[("X-A", "1")])
        self.assertEqual(f.unsafe_names([("X-B", "1"), ("Accept", "a"), ("X-A", "1")]), ("x-a", "x-b"))
        self.assertTrue(f.is_forbidden_header("Cookie", "a"))
        answer = [("Set-Cookie", "a=b"), ("X-A", "1"), ("Content-Type", "text/csv"),
                  ("Access-Control-Expose-Headers", "*")]
        self.assertEqual(f.exposed_names(answer, credentials=True), ("*",))
        self.assertEqual(len(f.exposed_names(answer)), 4)
        self.assertEqual(f.seen(page, asked, 201, answer).headers.pairs()[0], (b"X-A", b"1"))
        self.assertEqual(f.seen(page, asked, 201, answer, "opaque").status, 0)
        script = f.Load("script", "/")
        self.assertTrue(f.is_type_blocked(script, answer))
        self.assertTrue(f.is_nosniff_blocked(script, answer + [("X-Content-Type-Options", "nosniff")]))

    def test_policies_and_mixed_content(self) -> None:
        page, image = f.Client("https://a.example/"), f.Load("image", "http://b.example/i#f")
        policies = f.Policies(["img-src 'self', default-src *; upgrade-insecure-requests"], ["img-src https:"])
        self.assertEqual(policies.violations(page, image), [f.Violation(0, True, "img-src", "http://b.example/i")])
        self.assertEqual([it.policy for it in policies.violations(page, image, "response")], [0, 2])
        self.assertEqual(policies.violations(page, f.Load("image", "/i")), [])
        self.assertEqual(len(policies.violations(page, f.Load("image", "/i"), redirect="https://b.example/")), 1)
        self.assertTrue(f.upgrades(policies))
        self.assertTrue(f.is_mixed_upgraded(page, image))
        self.assertFalse(f.is_mixed_blocked(page, image, redirect="https://b.example/"))
        self.assertRaises(f.NotHttp, f.is_mixed_blocked, page, image, "data:,x")
        self.assertRaises(f.NoRequest, f.is_mixed_blocked, page, f.Load("image", "http://["))

    def test_reports_and_mixed_scripts(self) -> None:
        page, script = f.Client("https://a.example/"), f.Load("script", "http://b.example/s")
        policies = f.Policies(report_only=["script-src 'self'"])
        self.assertEqual(policies.violations(page, script), [])
        self.assertEqual(policies.violations(page, script, "report-only"),
                         [f.Violation(0, False, "script-src-elem", "http://b.example/s")])
        self.assertTrue(f.is_mixed_blocked(page, script))
        self.assertFalse(f.is_mixed_upgraded(page, script))
        self.assertRaises(f.NotAHeader, f.Policies(["default-src\n"]).compiled)

    def test_words_that_are_none(self) -> None:
        told = "'CORS' is no mode: it is one of 'same-origin', 'no-cors', 'cors', 'navigate'"
        with self.assertRaisesRegex(ValueError, told):
            f.Request("/", mode="CORS")
        page, image = f.Client("https://a.example/"), f.Load("image", "/")
        for wrong in (lambda: f.Request("/", credentials="yes"), lambda: f.Request("/", redirect="on"),
                      lambda: f.Load("fetch", "/"), lambda: f.Load("image", "/", crossorigin=""),
                      lambda: f.Policies().violations(page, image, "all"), lambda: f.seen(page, image, 200, [], "none"),
                      lambda: f.seen(page, image, 2**16, []), lambda: f.Client("https://a.example/", policy=9)):
            self.assertRaises(ValueError, wrong)
        self.assertRaises(TypeError, f.Policies, "default-src 'self'")

    def test_each_refusal_is_told_in_words(self) -> None:
        for code, kind in engine._ERRORS.items():
            with self.assertRaisesRegex(kind, "^[A-Z].*[a-z].*\\.$"):
                engine._told(code)
        headers = f.Headers()
        engine._lib.fiorrudda_free(headers._handle)
        self.assertRaises(f.WrongHandle, headers.get, "A")

    def test_preflights(self) -> None:
        page, asked = f.Client("https://a.example/"), f.Request("https://b.example/d", "PUT", headers=[("X-A", "1")])
        self.assertIn(b"Access-Control-Request-Headers: x-a\r\n", f.preflight(page, asked))
        self.assertIsNone(f.preflight(page, f.Request("https://b.example/")))
        answer = [("Access-Control-Allow-Origin", "*"), ("Access-Control-Allow-Methods", "PUT")]
        self.assertEqual(f.preflight_verdict(page, asked, 204, answer), f.Verdict(None, 11, "PreflightHeader", "x-a"))
        answer.append(("Access-Control-Allow-Headers", "*"))
        self.assertEqual(f.preflight_verdict(page, asked, 204, answer), f.Verdict(5))

    def test_the_module_has_each_call_and_each_number_of_the_header(self) -> None:
        header = (TOP / "include/fiorrudda.h").read_text()
        declared = set(re.findall(r"^\w+ fiorrudda_(\w+)\(", header, re.M))
        self.assertEqual(declared, {*engine._CALLS, "free"})
        numbers = header_numbers()
        self.assertEqual({it.name: it.value for it in f.ReferrerPolicy},
                         {name[9:]: number for name, number in numbers.items() if name.startswith("REFERRER_")})
        for code, it in [*engine._ERRORS.items(), (f.NoRequest.code, f.NoRequest)]:
            self.assertEqual(numbers[upper(it.__name__)], code)

    def test_the_words_have_the_numbers_of_the_header(self) -> None:
        numbers = header_numbers()
        words: dict[str, Iterable[Optional[str]]] = {
            "MODE": whole._MODES, "CREDENTIALS": whole._CREDENTIALS, "REDIRECT": whole._REDIRECTS,
            "LOAD": [None, *whole._KINDS],
            "CROSSORIGIN": ["absent", *whole._CROSSORIGINS[1:]], "CALL": whole._BOOK_CALLS, "CHECK": checks._CHECKS,
            "TAINTING": checks._TAINTINGS, "REASON": f.NotABook.NAMES, "FAULT": [None, *f.NoRequest.NAMES[1:]],
            "OUTCOME": ["response", "loaded", "error"], "END": [*whole._ENDS[:-1], "too-big"],
            "ACT": "over ask send read-head read-body tell gone".split(),
            "INPUT": "sent told ended failed yes no done".split(),
            "CHOOSE": "mode credentials redirect referrer referrer-policy upload crossorigin parser".split(),
            "REQUEST": ["body", "integrity", "nonce"],
            "TEXT": "origin url method body header-name header-value host key name learnt word refused".split(),
        }
        for kind, listed in words.items():
            wanted = {f"{kind}_{upper(word)}": at for at, word in enumerate(listed) if word}
            self.assertEqual({name: number for name, number in numbers.items() if name.startswith(f"{kind}_")}, wanted)
        for number, name in checks._ERRORS.items():
            self.assertEqual(numbers[f"ERROR_{upper(name)}"], number)
        told = "CALL TIME AGE SUBDOMAINS INCLUDE PREFLIGHT POLICY ENFORCED OUTCOME STATUS ERROR END COUNT".split()
        self.assertEqual([numbers[f"NUMBER_{name}"] for name in told], [getattr(whole, f"_{name}") for name in told])

    def test_what_the_page_shows_is_so(self) -> None:
        tried = doctest.testfile(str(TOP / "docs/embedding.md"), module_relative=False)
        self.assertEqual((tried.failed, tried.attempted > 3), (0, True))

    def test_the_page_names_each_call_of_a_rule(self) -> None:
        page = (TOP / "docs/embedding.md").read_text()
        part = page.partition("## Each rule alone")[2].partition("\n## ")[0]
        rows = re.findall(r"^\| [^|]* \|([^|]*)\|([^|]*)\|$", part, re.M)[1:]
        calls, named = ({name for row in rows for name in re.findall(r"`([\w.]+)`", row[at])} for at in (0, 1))
        self.assertEqual(calls - {*engine._CALLS}, set())
        self.assertEqual(named, {name for name in f.__all__ if name[0].islower()} - {
            "play", "reports", "audit", "judge", "judge_answer", "judge_many"} | {"Policies", "Book.note", "Book.is_known"})
        others = ("headers append get name_at value_at book book_text book_of_text client client_policy client_cookie "
                  "request load request_header request_text request_choose fetch act text number to_send input feed "
                  "ask judge play reports audit")
        self.assertEqual({*engine._CALLS} - calls, set(others.split()))


class Values(unittest.TestCase):
    PAGE = f.Client("https://a.example/", top="https://t.example/", policy=f.ReferrerPolicy.ORIGIN,
                    policies=f.Policies(["img-src 'self'"], ["default-src 'none'"]),
                    cookies={"https://b.example/": "c=d"})

    def again(self, thing: It) -> list[It]:
        """What came of it by pickle and by both kinds of copies."""
        return [pickle.loads(pickle.dumps(thing)), copy.copy(thing), copy.deepcopy(thing)]

    def first_act(self, page: f.Client, asked: Asked) -> object:
        return next(f.Fetch(page, asked))

    def test_each_is_pickled_and_copied_as_what_it_holds(self) -> None:
        headers = f.Headers([("A", "1"), ("b", b"\xff"), ("a", "")])
        for listed in self.again(headers):
            self.assertEqual(listed.pairs(), headers.pairs())
            listed.append("C", "2")
        self.assertIsNone(headers.get("C"))
        book = f.Book()
        book.note("a.example", "max-age=10", 0)
        for kept in self.again(book):
            self.assertEqual(kept.export(), book.export())
            kept.note("b.example", "max-age=10", 0)
        self.assertNotIn(b"b.example", book.export())
        policies = f.Policies(["img-src 'self'"], [b"default-src 'none'"])
        policies.compiled()
        for again in self.again(policies):
            again.values.append(("font-src 'none'", True))
            self.assertEqual((policies.values, again.values[:-1]), (policies.values[:2], policies.values))

    def test_a_request_again_sends_the_same(self) -> None:
        asked = f.Request("https://b.example/x", "PUT", mode="cors", credentials="include", redirect="error",
                          headers={"X-A": b"1"}, body=bytearray(b"\0"), referrer_policy=f.ReferrerPolicy.UNSAFE_URL,
                          integrity="sha256-AA==")
        for other in (asked, f.Request("https://b.example/", referrer=False, upload=True), f.Request("/y", b"HEAD"),
                      f.Load("script", "https://b.example/s", crossorigin="use-credentials", nonce="n", parser=True)):
            client = f.Client("https://a.example/", cookies={"https://b.example/": "c=d"})
            sent = self.first_act(client, other)
            for page, again in zip(self.again(client), self.again(other)):
                self.assertEqual(self.first_act(page, again), sent)
                self.assertEqual(repr(again), repr(other))

    def test_a_client_again_has_its_policies(self) -> None:
        told = self.first_act(self.PAGE, f.Load("image", "https://b.example/i"))
        self.assertIsInstance(told, f.Tell)
        for page in self.again(self.PAGE):
            self.assertEqual(self.first_act(page, f.Load("image", "https://b.example/i")), told)

    def test_exceptions_lose_nothing(self) -> None:
        for raised in (f.NoRequest(7, 2), f.NoRequest(1, 0), f.NotABook(3, 2), f.NotAScenario("/format"),
                       f.NotAUrl("words")):
            for again in self.again(raised):
                self.assertEqual((type(again), str(again), vars(again)), (type(raised), str(raised), vars(raised)))

    def test_values_are_pickled(self) -> None:
        for value in (f.Verdict(None, 11, "PreflightHeader", "x-a"),
                      f.Violation(0, True, "img-src", "https://a.example/"),
                      f.Sts(1, True), f.NetworkError(24, "LinkFault", None), whole.Call("match", 7, "a.example")):
            self.assertEqual(self.again(value), [value] * 3)
        seen = f.seen(f.Client("https://a.example/"), f.Request("/"), 200, {"X-A": "1"}, "basic")
        self.assertEqual([(it.status, it.headers.pairs()) for it in self.again(seen)], [(200, [(b"X-A", b"1")])] * 3)

    def test_a_fetch_is_neither_copied_nor_pickled(self) -> None:
        fetch = f.Fetch(f.Client("https://a.example/"), f.Request("/"))
        acts: list[Callable[[f.Fetch], object]] = [copy.copy, copy.deepcopy, pickle.dumps]
        for act in acts:
            self.assertRaisesRegex(TypeError, "a Fetch is neither copied nor pickled", act, fetch)
        self.assertIsInstance(next(fetch), f.Send)

    def test_processes_of_multiprocessing_answer_the_same(self) -> None:
        urls = ("/i", "https://b.example/", "http://b.example/", "http://[")
        triples = [(f.Policies([f"img-src {word}"]), self.PAGE, f.Load("image", url))
                   for word in ("'self'", "*", "b.example", "'none'") for url in urls]
        answers = list(map(self.told, f.violations_many(triples)))
        self.assertEqual(answers[:4], [[], [(0, "img-src", "https://b.example/")],
                                       [(0, "img-src", "http://b.example/")], "NoRequest"])
        with multiprocessing.get_context("spawn").Pool(2) as pool:
            came = pool.map(f.violations_many, [triples[at:at + 4] for at in range(0, 16, 4)])
        self.assertEqual([self.told(it) for part in came for it in part], answers)

    def told(self, answer: list[f.Violation] | f.FiorruddaError) -> object:
        if isinstance(answer, f.FiorruddaError):
            return type(answer).__name__
        return [(it.policy, it.directive, it.url) for it in answer]

    def test_many_answer_as_one_by_one(self) -> None:
        policies = f.Policies(["img-src 'self'"], ["img-src 'none'"])
        requests = [f.Load("image", "/"), f.Load("image", "https://b.example/")]
        for of in ("enforced", "report-only", "response"):
            self.assertEqual(f.violations_many([(policies, self.PAGE, it) for it in requests], of),
                             [policies.violations(self.PAGE, it, of) for it in requests])
        self.assertEqual(f.violations_many([]), [])
        self.assertRaises(ValueError, f.violations_many, [], "all")

    def test_policies_that_were_changed_are_compiled_anew(self) -> None:
        policies, page, image = f.Policies(["img-src 'none'"]), f.Client("https://a.example/"), f.Load("image", "/")
        self.assertEqual(len(policies.violations(page, image)), 1)
        policies.values[0] = ("img-src *", True)
        self.assertEqual(policies.violations(page, image), [])

    def test_headers_come_as_a_mapping_or_are_refused(self) -> None:
        kinds: list[Any] = [{"TE": "x"}, types.MappingProxyType({"TE": "x"}), email.message_from_string("TE: x\n\n"),
                            [["TE", "x"]]]
        for given in kinds:
            self.assertEqual(f.Headers(given).pairs(), [(b"TE", b"x")])
        self.assertEqual(f.essence({"Content-Type": "text/css"}), "text/css")
        self.assertEqual(f.Policies.of_headers({"content-security-policy": "x"}).values, [("x", True)])
        for wrong in ("TE", ["TE"], [("TE",)], [("TE", 1)], {"TE": ["x"]}, {"TE": None}, 7):
            self.assertRaises(TypeError, f.Headers, wrong)

    def test_words_are_not_taken_as_true(self) -> None:
        star = {"Access-Control-Allow-Origin": "*", "Access-Control-Expose-Headers": "*"}
        words: list[tuple[bool | str, bool]] = [(True, False), ("include", False), (False, True), ("omit", True),
                                                ("same-origin", True)]
        for credentials, passes in words:
            self.assertEqual(f.passes_cors_check("https://a.example", star, credentials), passes)
            self.assertEqual(len(f.exposed_names(star, credentials)), 2 if passes else 1)
        for wrong in ("Omit", "no", 1, None):
            self.assertRaises(ValueError, f.passes_cors_check, "https://a.example", star, wrong)
        page = f.Client("https://a.example/")
        for wrong in (lambda: f.Request("/", upload="no"), lambda: f.Request("/", referrer="none"),
                      lambda: f.Load("image", "/", parser=1), lambda: page.add_policy("img-src *", "report")):
            self.assertRaises(TypeError, wrong)

    def test_feed_takes_any_buffer(self) -> None:
        answer = b"HTTP/1.1 200 OK\r\nContent-Length: 5\r\n\r\n"
        doubled = bytes(byte for byte in answer for _ in (0, 1))
        kinds: list[Callable[[bytes], Any]] = [bytes, bytearray, memoryview, lambda it: array.array("B", it),
                                               lambda it: memoryview(doubled)[::2]]
        for kind in kinds:
            fetch = f.Fetch(f.Client("https://a.example/"), f.Request("/"))
            next(fetch)
            fetch.sent()
            self.assertEqual(fetch.feed(kind(answer)), len(answer))
            fetch.feed(memoryview(b"hello"))
            self.assertEqual((list(fetch), fetch.outcome.body), ([], b"hello"))
        self.assertRaises(TypeError, fetch.feed, "text")

    def test_each_shows_what_it_is(self) -> None:
        self.assertEqual(repr(f.Headers({"A": "1"})), "Headers([(b'A', b'1')])")
        self.assertEqual(repr(f.Policies(["img-src *"], ["x"])), "Policies(['img-src *'], ['x'])")
        self.assertEqual(repr(f.Request("/", "PUT", mode="no-cors", body="secret")),
                         "Request('/', 'PUT', mode='no-cors')")
        self.assertEqual(repr(f.Load("image", "/i", parser=True)), "Load('image', '/i', parser=True)")
        self.assertNotIn("c=d", repr(self.PAGE))
        self.assertEqual(repr(f.Fetch(self.PAGE, f.Request("/"))), "<Fetch of Request('/', 'GET')>")
        self.assertEqual(f.__version__, (TOP / "VERSION").read_text().strip())


class Types(unittest.TestCase):
    @unittest.skipUnless(shutil.which("mypy"), "there is no mypy")
    def test_the_types_hold(self) -> None:
        told = subprocess.run([HERE / "types"], stdout=subprocess.PIPE, stderr=subprocess.STDOUT, text=True)
        self.assertEqual(told.returncode, 0, told.stdout)


BUILDS = all(map(importlib.util.find_spec, ("pip", "setuptools", "wheel")))


class Package(unittest.TestCase):
    @unittest.skipUnless(BUILDS, "there is no pip, setuptools or wheel")
    def test_pip_installs_it_with_the_shared_object(self) -> None:
        with tempfile.TemporaryDirectory() as room:
            source, there = pathlib.Path(room) / "python", pathlib.Path(room) / "there"
            shutil.copytree(HERE / "fiorrudda", source / "fiorrudda", ignore=shutil.ignore_patterns("__pycache__"))
            shutil.copy(HERE / "pyproject.toml", source)
            shutil.copy(engine._lib._name, source / "fiorrudda/libfiorrudda.so")
            words: list[str | pathlib.Path] = ["-m", "pip", "install", "-q", "--no-build-isolation", "--no-index",
                                               "--target", there, source]
            told = subprocess.run([sys.executable, *words], stdout=subprocess.PIPE, stderr=subprocess.STDOUT, text=True)
            self.assertEqual(told.returncode, 0, told.stdout)
            own = {key: value for key, value in os.environ.items() if key != "FIORRUDDA_LIBRARY"}
            asked = "import fiorrudda; print(fiorrudda.__file__, fiorrudda.origin('https://a.example/x'))"
            said = subprocess.run([sys.executable, "-c", asked], stdout=subprocess.PIPE, text=True, cwd=room,
                                  env={**own, "PYTHONPATH": str(there)})
            self.assertEqual(said.stdout, f"{there / 'fiorrudda/__init__.py'} https://a.example\n")


class Fetches(unittest.TestCase):
    def test_plays_of_one_document(self) -> None:
        found = list(plays.of_one_document(os.environ.get("PLAYS", "").split()))
        self.assertGreaterEqual(len(found), 20)
        for name, scenario, text in found:
            for piece in (4096, 7):
                with self.subTest(name=name, piece=piece):
                    self.assertEqual(plays.Play(scenario, piece).text(), text)
        print(f"plays: ok, {len(found)}")

    def test_what_is_not_awaited_changes_nothing(self) -> None:
        fetch = f.Fetch(f.Client("https://a.example/"), f.Request("/b"))
        act = next(fetch)
        self.assertIsInstance(act, f.Send)
        self.assertRaises(f.NotAwaited, fetch.feed, b"HTTP/1.1 200 OK\r\n\r\n")
        self.assertRaises(f.NotAwaited, fetch.ask, f.Book())
        self.assertRaises(f.NotAwaited, fetch.told)
        self.assertEqual(next(fetch), act)
        self.assertIsNone(fetch.outcome)
        fetch.failed()
        self.assertRaises(StopIteration, next, fetch)
        self.assertEqual(fetch.outcome, f.NetworkError(24, "LinkFault", None))

    def test_a_book_of_the_callers_own(self) -> None:
        fetch = f.Fetch(f.Client("http://a.example/"), f.Request("/b"), now=7)
        self.assertEqual(next(fetch), f.Ask(whole.Call("match", 7, "a.example")))
        self.assertRaises(f.NotAwaited, fetch.reply)
        fetch.reply(True)
        self.assertEqual(next(fetch).origin, "https://a.example")

    def test_the_bytes_that_are_sent(self) -> None:
        asked = f.Request("/b", "POST", headers=[("X-A", "1")], body=b"\0\xff")
        act = next(f.Fetch(f.Client("https://a.example/", cookies=[("https://a.example/", "c=d")]), asked))
        lines = "".join(f"{name.decode()}: {value.decode()}\r\n" for name, value in act.headers)
        self.assertEqual(act.request, b"POST /b HTTP/1.1\r\n" + lines.encode() + b"\r\n\0\xff")
        self.assertIn((b"Cookie", b"c=d"), act.headers)

    def test_a_body_has_a_limit(self) -> None:
        client = f.Client("https://a.example/")
        for limit, end in ((5, "whole"), (4, "toobig")):
            fetch = f.Fetch(client, f.Request("/"), limit=limit)
            next(fetch)
            fetch.sent()
            fetch.feed(b"HTTP/1.1 200 OK\r\nContent-Length: 5\r\n\r\n")
            fetch.feed(b"hello")
            self.assertEqual((list(fetch), fetch.outcome.end), ([], end))
        for limit in (-1, 2**32):
            self.assertRaises(ValueError, f.Fetch, client, f.Request("/"), limit=limit)

    def test_threads_share_a_book_under_a_lock(self) -> None:
        book, lock = f.Book(), threading.Lock()
        came: list[int] = []
        allowed = (b"Access-Control-Allow-Origin: *\r\nAccess-Control-Allow-Methods: PUT\r\n"
                   b"Access-Control-Max-Age: 3\r\n")

        def work() -> None:
            for now in range(50):
                fetch = f.Fetch(f.Client("https://a.example/"), f.Request("https://b.example/", "PUT"), now)
                for act in fetch:
                    if isinstance(act, f.Ask):
                        with lock:
                            fetch.ask(book)
                    elif isinstance(act, f.Send):
                        fetch.sent()
                        fetch.feed(b"HTTP/1.1 204 X\r\n" + allowed + b"\r\n")
                    elif isinstance(act, f.ReadBody):
                        fetch.feed(b"")
                came.append(fetch.outcome.status)

        threads = [threading.Thread(target=work) for _ in range(4)]
        for it in threads:
            it.start()
        for it in threads:
            it.join()
        self.assertEqual(came, [204] * 200)
        self.assertEqual(f.Book.read(book.export()).export(), book.export())

    def test_a_request_that_is_none(self) -> None:
        client = f.Client("https://a.example/")
        with self.assertRaises(f.NoRequest) as fault:
            f.Fetch(client, f.Request("/", headers=[("a", "1"), ("a b", "1")]))
        self.assertEqual((fault.exception.number, fault.exception.name, fault.exception.header), (7, "BadHeader", 1))
        self.assertRaises(f.TooLate, f.Fetch, client, f.Request("/"), 2**48)


class Plays(unittest.TestCase):
    SCENARIO: dict[str, Any] = {
        "format": 1, "servers": [{"origin": "https://a.test", "rules": [{"status": 200, "body": "h\u00e9"}]}],
        "documents": [{"url": "https://a.test/", "script": [{"fetch": {"url": "/"}}]}]}

    def test_whole_plays(self) -> None:
        """The text is what fetchplay printed, where its threads called the book for one document after another."""
        found = list(plays.in_turn(os.environ.get("PLAYS", "").split()))
        self.assertGreaterEqual(len(found), 30)
        for name, scenario, text in found:
            with self.subTest(name=name):
                self.assertEqual(f.play(scenario), text)
        print(f"whole plays: ok, {len(found)}")

    def test_text_bytes_and_objects_are_played_the_same(self) -> None:
        text = f.play(self.SCENARIO)
        self.assertTrue(text.startswith("fetchplay 1\ndocument 0 https://a.test\nfetch 0\n"), text)
        self.assertTrue(text.endswith("\n  body whole 3: h\\xc3\\xa9\nend finished\nhistory\ndone\n"), text)
        written = json.dumps(self.SCENARIO, ensure_ascii=False)
        self.assertEqual(f.play(written), text)
        self.assertEqual(f.play(written.encode()), text)
        self.assertEqual(f.play(types.MappingProxyType(self.SCENARIO)), text)

    def test_a_refusal_tells_its_place(self) -> None:
        page = {"url": "https://a.test/", "script": [{"wait": -1}]}
        wrong: list[tuple[Any, str]] = [
            ({"format": 1, "documents": [page]}, "/documents/0/script/0/wait"), ({"format": 1}, "/documents"),
            ({"format": 1, "documents": [{"url": "/"}]}, "/documents/0/url"), ({}, "/format"), ("[]", "/"),
            ("", "json"), (b"\xff", "json"), ('{"format":', "json"), ({**self.SCENARIO, "now": float("nan")}, "json"),
        ]
        for scenario, place in wrong:
            with self.assertRaises(f.NotAScenario) as refused:
                f.play(scenario)
            self.assertEqual((refused.exception.place, str(refused.exception)), (place, place))
        self.assertRaises(TypeError, f.play, {"format": 1, "documents": {1, 2}})

    def test_a_play_with_reports(self) -> None:
        stored = TOP / "crates/cspreport"
        self.assertEqual(f.reports((stored / "stdin").read_bytes()), (stored / "stdout").read_text())
        many = {"format": 1, "documents": [{"url": "https://a.test/", "script": []}] * 17}
        with self.assertRaises(f.NotAScenario) as refused:
            f.reports(many)
        self.assertEqual(refused.exception.place, "/documents")

    def test_a_play_is_audited(self) -> None:
        text = f.play(self.SCENARIO)
        self.assertIsNone(f.audit(self.SCENARIO, text))
        self.assertIsNone(f.audit(json.dumps(self.SCENARIO).encode(), text.encode()))
        self.assertEqual(f.audit(self.SCENARIO, text.replace("fetchplay 1", "fetchplay 2")), "Text 10")
        self.assertEqual(f.audit(self.SCENARIO, ""), "History 0")
        self.assertEqual(f.audit("{", text), "Scenario json")
        self.assertEqual(f.audit({"a" * 600: 0}, text), "Scenario /")

    def test_a_text_that_is_longer_than_the_room_at_first(self) -> None:
        script = [{"repeat": 1000, "do": [{"fetch": {"url": "/"}}]}]
        text = f.play({**self.SCENARIO, "documents": [{"url": "https://a.test/", "script": script}]})
        self.assertGreater(len(text), engine._PLAY_ROOM)
        self.assertEqual(text.count("\nresult basic 200 https://a.test/\n"), 1000)

    def test_threads_play_side_by_side(self) -> None:
        text = f.play(self.SCENARIO)
        came: list[str] = []

        def work() -> None:
            came.extend(f.play(self.SCENARIO) for _ in range(20))

        threads = [threading.Thread(target=work) for _ in range(4)]
        for it in threads:
            it.start()
        for it in threads:
            it.join()
        self.assertEqual(came, [text] * 80)


def main() -> None:
    unittest.main(__name__)
