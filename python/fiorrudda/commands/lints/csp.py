"""Lints of policies: their headers, the policies and their directives. Those of single words are in csp_words.py."""
from __future__ import annotations

import re
from typing import TYPE_CHECKING

from fiorrudda.commands.lints import grammar
from fiorrudda.commands.lints.entry import DOCUMENT, Lint, nearest, write
from fiorrudda.commands.lints.policies import BACKSLASH, HTML_ESCAPE, PASTED
from fiorrudda.commands.lints.reading import POLICY, REPORT_ONLY
from fiorrudda.commands.there import there

if TYPE_CHECKING:
    from collections.abc import Callable, Container, Sequence

    from fiorrudda.commands.lints.policies import Directive, Policy, Word
    from fiorrudda.commands.lints.reading import Field, Headers
    from fiorrudda.commands.shapes import Found

OBSOLETE_NAMES = ("x-content-security-policy", "x-content-security-policy-report-only", "x-webkit-csp",
                  "x-webkit-csp-report-only")
REPORTING = ("report-to", "report-uri")
WORDS_OF = {"report-uri": "`/csp`", "report-to": "`csp`, which the header Reporting-Endpoints gives a URL",
            "require-trusted-types-for": "`'script'`", "webrtc": "`'block'`"}
IDLE = (*REPORTING, *grammar.OBSOLETE)  # directives that restrict nothing
CHECK_IN_BROWSER = "open the page in a browser, and look for violations in its console"
# What a play does not look at, and what it takes to check it.
NOT_PLAYED = {
    "base-uri": "in a browser, open the page with a `<base>` that it refuses",
    "child-src": "open the page with its frames and workers in a browser",
    "fenced-frame-src": "open the page with its fenced frames in a browser",
    "form-action": "send the page's forms in a browser",
    "frame-ancestors": "in a browser, put the page into a frame of another origin",
    "frame-src": "open the page with its frames in a browser",
    "object-src": "open the page with its `<object>` and `<embed>` in a browser",
    "report-to": "add `report-uri`, whose reports `bin/cspreport` sends; or open the page in a browser",
    "require-trusted-types-for": CHECK_IN_BROWSER,
    "sandbox": "open the page in a browser, and try its scripts, forms and popups",
    "script-src-attr": "open the page in a browser, and use what has inline handlers",
    "style-src-attr": CHECK_IN_BROWSER,
    "trusted-types": CHECK_IN_BROWSER,
    "webrtc": "start a call from the page in a browser",
    "worker-src": "start the page's workers in a browser",
}


# ---- headers

def misspelt_header(field: Field) -> Found:
    meant = None if field.name in (POLICY, REPORT_ONLY, *OBSOLETE_NAMES) else nearest(field.name, (POLICY, REPORT_ONLY))
    return {POLICY: "Content-Security-Policy", REPORT_ONLY: "Content-Security-Policy-Report-Only"}.get(meant or "")


def obsolete_header(field: Field) -> str | bool:
    meant = "Content-Security-Policy" + ("-Report-Only" if field.name.endswith("only") else "")
    return field.name in OBSOLETE_NAMES and meant


def name_in_value(field: Field) -> bool:
    """A whole line, or a line of HTML, in the place of the value."""
    return PASTED.match(field.value) is not None


def html_escape(field: Field) -> str | None:
    found = HTML_ESCAPE.search(field.value) if field.policies else None
    return found.group() if found else None


def backslash(field: Field) -> bool:
    return bool(field.policies) and not html_escape(field) and BACKSLASH.search(field.value) is not None


def quoted_value(field: Field) -> bool:
    """A policy in quotes, as configurations have it."""
    return bool(field.policies) and field.policies[0].is_quoted


HEADERS = [
    Lint("csp/header-misspelt", "a header's name", misspelt_header,
         "`{it.header}` is no header that a browser reads a policy of", "write `{meant}`"),
    Lint("csp/header-obsolete", "a header's name", obsolete_header, "no browser of today reads `{it.header}`",
         "send `{meant}`, and leave this one out"),
    Lint("csp/name-in-value", "a policy's header", name_in_value,
         "the value begins with a header's name or with HTML, which is no directive", "write the policy alone"),
    Lint("csp/html-escape", "a policy's header", html_escape,
         "`{meant}` in it is an escape of HTML, which headers have not", "write single quotes, and each sign as it is"),
    Lint("csp/backslashes", "a policy's header", backslash,
         "backslashes stand before its quotes, and are part of the words", "write the quotes alone"),
    Lint("csp/policy-in-quotes", "a policy's header", quoted_value,
         "the whole policy is in quotes, so its first directive is unknown", "write it without them"),
]


# ---- policies

def is_idle(directive: Directive) -> bool:
    return directive.name in IDLE or not directive.is_known


def is_idle_policy(policy: Policy) -> bool:
    return all(is_idle(one) for one in policy.effective.values())


def does_nothing(policy: Policy) -> bool:
    is_meant = any(one and one not in IDLE for one in meant_names(policy))
    is_part = comma(policy) or policy.number in policy.field.continued
    return is_idle_policy(policy) and not policy.is_pasted and not is_part and not is_meant


def meant_names(policy: Policy) -> list[str | None]:
    """The names of directives that are meant by misspelt ones and by those beyond ASCII, which is another lint."""
    return [one.name if one.is_known else (with_sign(one) or "").partition(" ")[0] or
            meant_directive(one.name, policy.effective)
            for one in policy.directives if not (one.is_known and one.text.isascii())]


def is_unheard(policy: Policy) -> bool:
    is_heard = any(map(names_endpoint, parts_of(policy)))
    return policy.is_report_only and not is_heard and not is_idle_policy(policy)


def parts_of(policy: Policy) -> Sequence[Policy]:
    """The policies of its header, where a comma of it is meant for something else; it alone, where none is."""
    field = policy.field
    is_split = field.continued or any(map(comma, field.policies))
    return field.policies if is_split else [policy]


def names_endpoint(policy: Policy) -> bool:
    """Also where the directive lacks its semicolon or is misspelt, which is another lint."""
    words = (word.lower() for directive in policy.directives for word in (directive.name, *directive.rest))
    return any(name in REPORTING for name in (*words, *meant_names(policy)))


def comma(policy: Policy) -> Found:
    """A comma between words: what stands behind it is no directive."""
    first = policy.directives[0] if policy.directives else None
    return first is not None and first.follows_comma and not first.is_known and first.written


def widening(policy: Policy) -> Found:
    """The directive that would widen the default-src of another policy, where the comma is meant for a semicolon."""
    return policy.field.continued.get(policy.number)


POLICIES = [
    Lint("csp/comma-for-semicolon", "a policy", widening,
         "the comma before `{it.first_name}` begins a policy of its own, and each must let a request through: "
         "`{meant}` does not widen `default-src`, which stands in another", "write a semicolon for the comma"),
    Lint("csp/does-nothing", "a policy", does_nothing, "nothing in this policy restricts anything",
         "add a directive such as `default-src 'self'`"),
    Lint("csp/report-only-unheard", "a policy", is_unheard,
         "a report-only policy blocks nothing, and this one names no endpoint, so nobody is told of its violations",
         "add an endpoint, such as `report-uri /csp`; or send it as Content-Security-Policy"),
    Lint("csp/comma", "a policy", comma, "a comma ends a policy, and `{meant}` stands behind it as another",
         "write a blank between sources, and a semicolon between directives"),
]


# ---- directives

def unknown_directive(directive: Directive) -> Found:
    if directive.is_known or directive.follows_comma or directive.policy.is_pasted or not directive.text.isascii():
        return None
    return write(meant_directive(directive.name, directive.policy.effective))


def meant_directive(name: str, there: Container[str]) -> str | None:
    """The directive that is meant by a name that is none, or None. `there` are the names that the policy has."""
    short = grammar.SHORT.get(name)
    if short:
        return None if short in there else short
    return nearest(name, grammar.SOURCES + grammar.OTHERS)


def with_sign(directive: Directive) -> str | None:
    found = grammar.WITH_SIGN.fullmatch(directive.written)
    if found is None or found.group(1).lower() not in grammar.DIRECTIVES:
        return None
    return " ".join(filter(None, [found.group(1).lower(), found.group(2)]))


def lone_sign(directive: Directive) -> Found:
    """A sign that stands alone between the name and the words."""
    return directive.rest[:1] in (["="], [":"]) and directive.rest[0]


def source_as_directive(directive: Directive) -> Found:
    """A semicolon between words: a source stands as a directive's name."""
    if directive.is_known or directive.follows_comma or directive.policy.is_pasted or with_sign(directive):
        return None
    form = r"'[^']*'|\*|(?:https?|wss?|data|blob):\S*|(?:\*\.)?[a-z0-9-]+(?:\.[a-z0-9-]+)+\S*"
    return re.fullmatch(form, directive.name) is not None


def split_url(directive: Directive) -> Found:
    """The first URL that a blank behind its scheme parts in two words."""
    urls = list(directive.split_urls.values())
    return directive.has_sources and (urls[0] if urls else None)


def beyond_ascii(directive: Directive) -> Found:
    found = re.search(r"[^\x00-\x7f]", directive.text)
    return found.group() if found else None


def needs_words(directive: Directive) -> Found:
    example = "`'none'` where nothing is let through" if directive.has_sources else WORDS_OF.get(directive.name)
    return None if directive.rest else example


def takes_none(directive: Directive) -> bool:
    return directive.name in grammar.NO_WORDS and bool(directive.words) and not directive.words[0].is_directive


def none_beside_others(directive: Directive) -> Found:
    if not directive.has_sources or "'none'" not in directive.texts:
        return None
    others = [word for word in directive.words if word.lower != "'none'" and not word.is_directive
              and word.lower.strip("'") not in grammar.REPORTS]
    return bool(others)


def star_beside_others(directive: Directive) -> Found:
    """The first source that `*` has already."""
    if not directive.has_sources or "*" not in directive.texts or "strict-dynamic" in directive.inner:
        return None
    others = ("'self'", "http:", "https:")
    return next((word.text for word in directive.words if word.lower in others or is_web_host(word)), None)


def is_web_host(word: Word) -> bool:
    """Whether it is a host over http or https, and not `*`."""
    is_host = word.host is not None and word.text != "*" and not word.is_directive
    return is_host and there(word.host).group("scheme") in (None, "http", "https")


def ignored_inline(directive: Directive) -> bool:
    return (directive.name in grammar.OF_CODE and "unsafe-inline" in directive.inner and directive.has_proof
            and "strict-dynamic" not in directive.inner)


def strict_dynamic_alone(directive: Directive) -> bool:
    return (directive.name in grammar.SCRIPTS and directive.policy.decides("script-src-elem") == directive.name
            and "strict-dynamic" in directive.inner and not directive.has_proof)


def hashes_alone(directive: Directive) -> bool:
    return (directive.name in grammar.OF_CODE and "unsafe-hashes" in directive.inner
            and not any(word.inner and grammar.HASH.fullmatch(word.inner) for word in directive.words))


def ignored_in_report_only(directive: Directive) -> bool:
    return directive.policy.is_report_only and directive.name in ("sandbox", "upgrade-insecure-requests")


def is_many(directive: Directive) -> Found:
    return directive.name in ("report-to", "webrtc") and len(directive.words) > 1 and directive.words[0].text


def url_in_report_to(directive: Directive) -> bool:
    return directive.name == "report-to" and any("/" in word.text for word in directive.words)


def group_in_report_uri(directive: Directive) -> Found:
    """A name of Reporting-Endpoints where a URL belongs."""
    groups = groups_of(directive.policy.headers)
    found = [word.text for word in directive.words if word.text in groups]
    return directive.name == "report-uri" and (found[0] if found else None)


def unknown_group(directive: Directive) -> Found:
    """A name that Reporting-Endpoints, which is there, does not have."""
    headers = directive.policy.headers
    if directive.name != "report-to" or not headers.values("Reporting-Endpoints") or headers.values("Report-To"):
        return None
    groups = groups_of(headers)
    return next((word.text for word in directive.words if word.text not in groups and "/" not in word.text), None)


def groups_of(headers: Headers) -> list[str]:
    return re.findall(r"(?:^|,)\s*([a-z*][a-z0-9_.*-]*)\s*=", headers.get("Reporting-Endpoints") or "")


def obsolete(name: str) -> Callable[[Directive], bool]:
    return lambda directive: directive.name == name


DIRECTIVES = [
    Lint("csp/directive-with-sign", "a directive", with_sign,
         "`{it.written}` is no directive: a blank alone stands behind its name", "write `{meant}`"),
    Lint("csp/sign-alone", "a directive", lone_sign, "`{meant}` in `{it.name}` is no word", "take it out"),
    Lint("csp/source-as-directive", "a directive", source_as_directive,
         "a semicolon ends a directive, so `{it.written}` stands as the name of another",
         "take the semicolon before it out"),
    Lint("csp/blank-in-url", "a directive", split_url,
         "a blank behind the scheme in `{it.name}` makes two words of `{meant}`, and the scheme alone matches nothing",
         "write `{meant}`"),
    Lint("csp/not-ascii", "a directive", beyond_ascii,
         "`{it.name}` is skipped, since it has `{meant}` in it, which is not ASCII",
         "write ASCII alone, and straight single quotes"),
    Lint("csp/unknown-directive", "a directive", unknown_directive, "`{it.written}` is no directive, and is skipped",
         "{meant}", is_last=True),
    Lint("csp/directive-twice", "a directive", lambda directive: bool(directive.is_again),
         "`{it.name}` stands twice in this policy, and the first one counts", "write all its words into one"),
    Lint("csp/no-words", "a directive", needs_words, "`{it.name}` has no words",
         "write them, such as {meant}; or take it out"),
    Lint("csp/needless-words", "a directive", takes_none, "`{it.name}` takes no words",
         "take out what stands behind it; or put a semicolon before it"),
    Lint("csp/none-beside-others", "a directive", none_beside_others,
         "`'none'` in `{it.name}` is ignored, since others stand beside it",
         "take `'none'` out; or take the others out"),
    Lint("csp/star-beside-others", "a directive", star_beside_others,
         "`*` in `{it.name}` lets all of http and https through, `{meant}` too",
         "take `*` out; or take the others out"),
    Lint("csp/unsafe-inline-ignored", "a directive", ignored_inline,
         "`'unsafe-inline'` in `{it.name}` is ignored, since a nonce or a hash stands beside it", "take it out"),
    Lint("csp/strict-dynamic-alone", "a directive", strict_dynamic_alone,
         "`'strict-dynamic'` in `{it.name}` trusts what a script with a nonce or a hash loads, and there is neither, "
         "so no script is let through", "add `'nonce-..'`, with a value that is new in each answer"),
    Lint("csp/unsafe-hashes-alone", "a directive", hashes_alone,
         "`'unsafe-hashes'` in `{it.name}` says that hashes count for attributes, and there is none",
         "add the hashes; or take it out"),
    Lint("csp/report-only-ignores", "a directive", ignored_in_report_only,
         "`{it.name}` has no effect in a report-only policy", "send it in Content-Security-Policy"),
    Lint("csp/one-word-alone", "a directive", is_many, "`{it.name}` takes one word",
         "write `{meant}` alone; or put a semicolon where another directive begins"),
    Lint("csp/url-in-report-to", "a directive", url_in_report_to,
         "`report-to` takes a name that the header Reporting-Endpoints gives to a URL",
         "write the URL behind `report-uri`; or name it"),
    Lint("csp/name-in-report-uri", "a directive", group_in_report_uri,
         "`report-uri` takes URLs, and `{meant}` is a name of Reporting-Endpoints", "write `report-to {meant}`"),
    Lint("csp/report-to-unknown", "a directive", unknown_group,
         "Reporting-Endpoints does not have the name `{meant}`, so no report is sent there",
         "add it: `Reporting-Endpoints: {meant}=\"https://..\"`"),
    *(Lint("csp/obsolete-" + name, "a directive", obsolete(name), f"`{name}` is not in the standard any more",
           change)
      for name, change in sorted(grammar.OBSOLETE.items())),
]


# ---- what is not played

def named(name: str) -> Callable[[Directive], bool]:
    return lambda directive: directive.name == name and not directive.is_again and not beside_uri(directive)


def beside_uri(directive: Directive) -> bool:
    """`report-to` of a policy that has `report-uri` too."""
    return directive.name == "report-to" and not directive.is_again and "report-uri" in directive.policy.effective


def inline_word(word: Word) -> bool:
    return word.inner is not None and word.inner.lower() in grammar.CODE and word.directive.name in grammar.OF_CODE


NOTES = [
    *(Lint("csp/not-played-" + name, "a directive", named(name), f"a play does not look at `{name}`",
           "to check it, " + change, (DOCUMENT,), is_note=True) for name, change in sorted(NOT_PLAYED.items())),
    Lint("csp/report-to-and-uri", "a directive", beside_uri,
         "a browser that knows `report-to` sends its reports there, and none to `report-uri`, which is for the others; "
         "`bin/cspreport` sends those to `report-uri` here, and none to `report-to`",
         "name an endpoint by each, and look at the reports of both", (DOCUMENT,), is_note=True),
    Lint("csp/not-played-inline", "a source", inline_word,
         "a play has no inline scripts and styles, no `eval` and no samples, and does not look at `{it.lower}`",
         "to check it, " + CHECK_IN_BROWSER, (DOCUMENT,), is_note=True),
]

TABLE = HEADERS + POLICIES + DIRECTIVES + NOTES
