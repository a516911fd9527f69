"""Types of what several commands hand on. mypy alone reads this module: the others import it where they are checked, so
that a call of bin/why does not pay for it."""
from __future__ import annotations

import argparse
import re
import types
from collections.abc import Sequence
from typing import Any, Optional, Protocol, Union

from fiorrudda.commands.answers import Answer
from fiorrudda.commands.case import Case
from fiorrudda.commands.json_text import Node
from fiorrudda.commands.lints.hsts import Meant
from fiorrudda.commands.lints.policies import Directive, Policy, Word
from fiorrudda.commands.lints.reading import Field, Options, Status
from fiorrudda.commands.play_text import Send

Given = Union[argparse.Namespace, types.SimpleNamespace]  # the words of bin/why
Object = dict[str, Any]  # of JSON
Path = list[Any]  # keys, and numbers of items, that lead to a node
Edit = dict[str, Any]  # edits.py says what it has
Ways = list[list[Edit]]  # each would do, the best first
Pairs = list[tuple[str, str]]  # of names and values
Headed = Sequence[Sequence[str]]  # the same, as JSON has it
Policies = list[tuple[bool, dict[str, list[str]]]]  # whether each is enforced, and its directives
Sent = tuple[Send, Optional[Answer]]
Misfit = tuple[Node, str, str]  # its place, and a sentence
Cases = dict[tuple[int, str], Case]  # by the numbers of documents, and the names of fetches and loads
Passing = tuple[int, Case, bool, bool]  # what policies are to let pass: enforced ones, and those that only report
Lacking = dict[Any, Any]
Places = dict[tuple[str, int], tuple[str, int]]  # hosts and ports, and where to connect in their place
Thing = Union[Field, Policy, Directive, Word, Options, Status]  # that lints look at
Found = Union[Meant, str, bool, re.Match[str], None]  # what a lint finds
Wanted = list[tuple[str, Optional[str]]]  # headers that CORS wants


class AnyRequest(Protocol):
    """A request that was sent, or one that would be, as the rules of a server look at it."""

    kind: str
    origin: str
    target: str
    method: str
    headers: Pairs
