"""Policies with all changes that are named for them: where several loads violate one, each with a change of its own,
one text lets all of them pass. It is built on the text in which the slips that are warned of are mended, and every load
of the page is asked of that again: what is mended may refuse what passed before."""
from __future__ import annotations

from collections import namedtuple
from typing import TYPE_CHECKING

from fiorrudda.commands import csp, edits
from fiorrudda.commands.explanations import policy_explanation

if TYPE_CHECKING:
    from collections.abc import Callable
    from typing import Any

    from fiorrudda.commands.case import Case
    from fiorrudda.commands.lints.mending import Mended
    from fiorrudda.commands.scenario import Scenario
    from fiorrudda.commands.shapes import Edit, Object


MOST_NAMED = 12  # hosts in a sentence
# The header of a policy that is not read yet: its number, its name and its right name.
Header = namedtuple("Header", "at name right")


class Whole(namedtuple("Whole", "policy enforced text value changes mended besides header", defaults=[None])):
    """A policy of a document by its number, with its text and what that should be; so many different changes were
    named. `besides` are the edits that other things than policies need, with the names of their fetches and loads.
    `header` is that of a policy that is not read yet."""

    @property
    def is_told(self) -> bool:
        """Whether it says more than the one change of a load, or than a lint."""
        return bool(self.value != "" and self.changes + self.mended.slips > 1)

    @property
    def is_same(self) -> bool:
        """Whether the policy itself stays as it is."""
        return bool(self.value == self.text and self.header is None)

    def line(self, is_wanted: bool = False) -> str:
        """`is_wanted` says that a test wants all that passes then."""
        by_phrase: dict[str, list[str]] = {}
        for name, own in self.besides:
            by_phrase.setdefault(edits.phrase(own), []).append(name)
        said = [f"for {edits.listed(names)} {phrase}" for phrase, names in by_phrase.items()]
        first = [] if self.is_same else [self.sentence() + ("" if is_wanted else self.of_new_words())]
        return "in all: " + "; and ".join(first + said)

    def of_new_words(self) -> str:
        """That some of what it lets in may be what it is to keep out: the hosts and schemes that it gets."""
        before = csp.directives(self.mended.text)
        found: dict[str, None] = {}
        for name, words in csp.directives(self.value).items():
            known = before.get(name, before.get("default-src", []))
            found.update({word: None for word in words if is_source(word) and word not in known})
        if not found:
            return ""
        more = [f"{len(found) - MOST_NAMED} more"] if len(found) > MOST_NAMED else []
        named = edits.listed([*list(found)[:MOST_NAMED], *more])
        return f": it lets in {named}; leave out what the page does not mean to load"

    def sentence(self) -> str:
        if self.header:
            unread = "" if self.header.right != self.header.name else ", of which nothing is read yet"
            return f"send `{self.header.right}: {self.value}` in the place of `{self.header.name}`{unread}"
        last = self.policy + self.mended.joined
        name = f"policies {self.policy} to {last}, joined," if self.mended.joined else f"policy {self.policy}"
        told = f"let {name}{'' if self.enforced else ' (report-only)'} be `{self.value}`"
        if not self.mended.slips:
            return told
        how = "" if self.mended.is_right else ", as far as it is known how"
        return f"{told}, where what is warned of is mended{how}"

    def data(self) -> Object:
        besides = [{"name": name, "edits": own} for name, own in self.besides]
        return {"policy": self.policy, "enforced": self.enforced, "value": self.value, "mended": self.mended.slips,
                "besides": besides}


def whole(scenario: Scenario, number: int, cases: list[Case], is_wanted: Callable[..., Any] = lambda case, policy: True,
          lacking: dict[int, list[str]] | None = None) -> list[Whole]:
    """Each policy of a document for which there is a change, in order. `is_wanted(case, policy)` says whether a case is
    to pass the policy of this number. `lacking` are directives that policies have to get: they let nothing pass but
    what is wanted."""
    headers = scenario.documents()[number].get("headers", [])
    texts, lacking = csp.texts(headers), lacking or {}
    mended = [refusing(one, lacking.get(index, [])) for index, one in enumerate(scenario.mended_policies(number))]
    unread = scenario.unread_policies(number)
    policies = [(enforced, csp.directives(one.text)) for (enforced, _), one in zip(texts, mended)]
    policies += [(csp.HEADERS[one.name.lower()], csp.directives(one.mended.text)) for one in unread]
    found = {index: Gathered(names) for index, names in lacking.items()}
    for case in cases:
        under = case.under(policies)
        for violation in under.violations:
            if violation.policy >= len(texts) or is_wanted(case, violation.policy):
                own = policy_explanation(under.of_violation(violation)).edits
                found.setdefault(violation.policy, Gathered()).add(case, own)
    wholes = [found.get(index, Gathered()).whole(index, enforced, text.strip(), mended[index])
              for index, (enforced, text) in enumerate(texts) if index in found or mended[index].slips]
    for index, one in enumerate(unread, len(texts)):
        name, value = headers[one.at]
        told = found.get(index, Gathered()).whole(None, policies[index][0], value.strip(), one.mended)
        wholes.append(told._replace(header=Header(one.at, name, one.name)))
    return wholes


def refusing(mended: Mended, names: list[str]) -> Mended:
    """The policy with directives that let nothing pass."""
    text = mended.text
    for name in names:
        text = csp.with_directive(text, name, "'none'")
    return mended._replace(text=text)


class Gathered:
    """The changes of one policy: values by directives, what else is to be changed, and the directives that it lacks."""

    def __init__(self, lacking: list[str] | None = None) -> None:
        self.lacking = set(lacking or [])
        self.by_name: dict[str, dict[str, None]] = {}
        self.besides: list[tuple[str, list[Edit]]] = []

    def add(self, case: Case, own: list[Edit]) -> None:
        for edit in own:
            if "policy" in edit:
                self.by_name.setdefault(edit["set"], {})[edit["value"]] = None
        others = [edit for edit in own if "policy" not in edit]
        if others:
            self.besides.append((case.fetch.name, others))

    def whole(self, number: int | None, enforced: bool, text: str, mended: Mended) -> Whole:
        """The policy with directives by their names, each of which has one or several values that are advised."""
        own, value = csp.directives(mended.text), mended.text
        for name, values in self.by_name.items():
            value = csp.with_directive(value, name, merged(own.get(name, own.get("default-src", [])), list(values)))
        changes = sum(map(len, self.by_name.values())) + len(self.besides) + len(self.lacking)
        return Whole(number, enforced, text, value, changes, mended, self.besides)


def merged(there: list[str], values: list[str]) -> str:
    """The words of all values, each once, without those that one of them has taken away or that another word covers."""
    if len(values) == 1:
        return values[0]
    known = set(there)
    gone: set[str] = set()
    added: dict[str, None] = {}
    for value in values:
        words = value.split()
        gone |= known.difference(words)
        added.update((word, None) for word in words if word not in known)
    left = [word for word in there if word not in gone]
    standing = {*left, *added}
    return " ".join(left + [word for word in added if without_path(word) not in standing])


def is_source(word: str) -> bool:
    """Whether a word names a host or a scheme."""
    return bool(csp.HOST.fullmatch(word) or csp.SCHEME.fullmatch(word))


def without_path(word: str) -> str | None:
    """The word that also matches what lies beside its path; None where it has none."""
    parts = csp.HOST.fullmatch(word)
    return word[:-len(parts.group(4))] if parts and parts.group(4) else None
