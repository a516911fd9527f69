"""Plays the scenarios of a page: what each of its commands comes to. What no scenario can have costs its command
alone."""
from __future__ import annotations

import json
import re
from dataclasses import dataclass, field
from functools import cached_property
from typing import Any, Optional

from fiorrudda.commands import answers, known_hosts, play_text, running
from fiorrudda.commands.case import Case
from fiorrudda.commands.explanations import Explanation, PolicyExplanation, explain, explain_policies
from fiorrudda.commands.notes import notes
from fiorrudda.commands.scenario import Scenario
from fiorrudda.commands.there import there
from fiorrudda.recorded import progress
from fiorrudda.recorded.changes import NONE, Changes
from fiorrudda.recorded.model import Chain
from fiorrudda.recorded.rules import PASSING, Supposed, is_supposed
from fiorrudda.recorded.scenarios import Layer, Part, layers_of

COMMAND = re.compile(r"/documents/0/script/(\d+)(?:/.*)?")
SERVER = re.compile(r"/servers/(\d+)(?:/origin|/rules/(\d+).*)?")
HOST = re.compile(r"/hsts/(\d+).*")
MOST_TRIES = 12
LONGEST = 4194304  # bytes of a scenario
NO_SCENARIO = "no scenario can have it, at %s"
NO_PAGE = "its page is none that a scenario can have"
TOO_LONG = "the play of its page ended before it"


class PlayedCase(Case):
    """A case that is explained where it is asked why: most of a recording pass, and nobody asks. `recorded` is the
    chain that it is the play of."""

    recorded: Optional[Chain] = None

    @property
    def own_head(self) -> Optional[answers.Head]:
        """That of the recording: a supposed one is not known."""
        number = len(self.chain) - (not play_text.is_preflight(self.request))
        hops = self.recorded.hops[number:number + 1] if self.recorded else []
        return None if any(map(is_supposed, hops)) else super().own_head

    @cached_property
    def explanation(self) -> Optional[Explanation]:  # type: ignore[override]  # made where it is asked for
        return explain(self)

    @cached_property
    def policies_told(self) -> list[PolicyExplanation]:  # type: ignore[override]  # made where it is asked for
        return explain_policies(self) if self.violations else []

    @cached_property
    def notes(self) -> list[str]:  # type: ignore[override]  # made where it is asked for
        is_plain = self.command.is_load and len(self.exchanges) == 1 and self.command.url.startswith("https:")
        return [] if is_plain else notes(self)


@dataclass
class Played:
    """What the commands of a part came to, by their numbers; `problems` says of the others why they were not played."""

    cases: dict[int, PlayedCase] = field(default_factory=dict)
    problems: dict[int, str] = field(default_factory=dict)


def played(part: Part, supposed: Supposed = PASSING, changes: Changes = NONE,
           wanted: Optional[set[int]] = None) -> Played:
    """What the commands of a part come to; of these numbers alone, where they are given."""
    layers, left = layers_of(part, supposed, changes)
    found = Played(problems=left)
    for layer in layers:
        play_layer(layer, found, layer.own if wanted is None else layer.own & wanted)
    progress.add_played(len(part.commands))
    for number, case in found.cases.items():
        case.recorded = part.commands[number].chain
    return found


def play_layer(layer: Layer, found: Played, wanted: set[int]) -> None:
    """Plays a scenario, without what is refused in it."""
    data = layer.data
    numbers = list(range(sum("wait" not in one for one in data["documents"][0]["script"])))
    for _ in range(MOST_TRIES):
        try:
            cases = cases_of(data, {place for place, number in enumerate(numbers) if number in wanted})
        except running.Refused as refused:
            number = without(data, refused.place, numbers)
            if number is None:
                problem = NO_PAGE
                break
            if number >= 0:
                found.problems.setdefault(number, NO_SCENARIO % refused.place)
            continue
        found.cases.update({number: there(case) for number, case in zip(numbers, cases) if number in wanted})
        problem = TOO_LONG
        break
    else:
        problem = NO_PAGE
    for number in wanted - set(found.cases):
        found.problems.setdefault(number, problem)


def cases_of(data: dict[str, Any], wanted: Optional[set[int]] = None) -> list[Optional[PlayedCase]]:
    """What each command of a scenario comes to; where places are given, None stands for some of the others."""
    text = json.dumps(data).encode("ascii")
    if len(text) > LONGEST:
        raise running.Refused("/")
    scenario, play = Scenario(None, data), play_text.read(running.played(text))
    scenario.attach(play)
    is_upgraded = b'"http:' in text  # else nothing stays http
    cases = [PlayedCase(scenario, fetch, exchanges_of(scenario, fetch))
             if is_upgraded or wanted is None or place in wanted else None
             for place, fetch in enumerate(play.fetches())]
    if is_upgraded:
        known_hosts.tell(scenario, list(filter(None, cases)))
    return cases


def exchanges_of(scenario: Scenario, fetch: Any) -> list[tuple[Any, Any]]:
    """The requests of a fetch with their answers."""
    return [(request, answers.scripted(scenario, request)) for request in fetch.of("send")]


def without(data: dict[str, Any], place: str, numbers: list[int]) -> Optional[int]:
    """Takes out what is refused at a place. The number of the command that went, -1 of something else, None where
    nothing can go."""
    command, server, host = COMMAND.fullmatch(place), SERVER.fullmatch(place), HOST.fullmatch(place)
    if command:
        script, at = data["documents"][0]["script"], int(command.group(1))
        index = sum("wait" not in one for one in script[:at])
        del script[at]
        return numbers.pop(index)
    if server and server.group(2):
        del data["servers"][int(server.group(1))]["rules"][int(server.group(2))]
    elif server:
        del data["servers"][int(server.group(1))]
    elif host:
        del data["hsts"][int(host.group(1))]
    return -1 if server or host else None
