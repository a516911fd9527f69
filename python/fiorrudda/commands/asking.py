"""What bin/why does: plays a scenario, tells why, or what is wrong in the scenario.

What a refusal and real servers take is imported where it is used: most calls need neither, and it costs as much as a
play."""
from __future__ import annotations

import os
import sys
from typing import TYPE_CHECKING

from fiorrudda.commands import doubts, findings, json_text, lints, play_text, running, streams, told, verdicts
from fiorrudda.commands.scenario import Scenario
from fiorrudda.commands.there import there
from fiorrudda.places import ROOT

if TYPE_CHECKING:

    from fiorrudda.commands.doubts import Doubt
    from fiorrudda.commands.json_text import Node
    from fiorrudda.commands.refusals import Refusal
    from fiorrudda.commands.relay import Relay
    from fiorrudda.commands.shapes import Given, Object
    from fiorrudda.commands.told import Told

SCHEMA = os.path.join(ROOT, "schema", "scenario.schema.json")


class Wrong(Exception):
    """A scenario that is refused; `refusal` says why."""

    def __init__(self, refusal: Refusal) -> None:
        super().__init__(refusal.sentence)
        self.refusal = refusal


def read(data: bytes, what: str = "a scenario") -> tuple[str, Node]:
    """The text of bytes, and its tree."""
    text = data.decode("utf-8", "replace")
    try:
        text = json_text.decoded(data)
        return text, json_text.read(text, what)
    except json_text.Fault as fault:
        from fiorrudda.commands import refusals
        refusal = refusals.of_fault(text, fault)
        if text.lstrip().startswith("curl "):
            refusal.sentence = f"this is a command of curl, and not {what}: bin/ask takes it as it is"
        raise Wrong(refusal) from fault


def played(data: bytes, is_net: bool = False, patience: float = 20) -> tuple[str, Scenario, Told]:
    """A scenario's bytes, played: its text, the scenario, and what is told of the play."""
    text, root = read(data)
    try:
        if is_net:
            return (text, *played_over_net(data, text, root, patience))
        play = play_text.read(running.played(data))
        scenario = Scenario(root)
        return text, scenario, told.scripted(scenario, play)
    except running.Refused as refused:
        raise Wrong(refused_at(text, root, refused.place)) from refused


def refused_at(text: str, root: Node, place: str) -> Refusal:
    """Why the program refuses a scenario at a place."""
    from fiorrudda.commands import refusals
    from fiorrudda.commands.schema import Schema
    if root.kind == "object" and root.member("scenario") and root.member("expect"):
        return refusals.Refusal(text, root.start, place, "this is a test, and no scenario: bin/expect plays it")
    if root.kind == "object" and there(root).member("log") and there(there(root).member("log")).member("entries"):
        return refusals.Refusal(text, root.start, place, "this is a recording (HAR), and no scenario: bin/har reads it")
    return refusals.of_place(text, root, place, Schema(SCHEMA))


def played_over_net(data: bytes, text: str, root: Node, patience: float) -> tuple[Scenario, Told]:
    """The play is led through a relay, which keeps the answers. What is refused is refused without it."""
    from fiorrudda.commands import relay
    scenario = Scenario(root) if root.kind == "object" else None
    addresses = addresses_of(scenario)
    with relay.Relay(addresses, patience) as passing:
        text = running.played(redirected(data, text, root, passing), "net")
    known = there(scenario)  # what is no object was refused
    return known, told.recorded(known, play_text.read(text), passing)


def addresses_of(scenario: Scenario | None) -> list[str]:
    """As far as the routes have their form; the program looks at the rest."""
    routes = scenario.data.get("routes") if scenario else None
    pairs = [one for one in routes if isinstance(one, list) and len(one) == 2] if isinstance(routes, list) else []
    return sorted({address for _, address in pairs if isinstance(address, str)})


def redirected(data: bytes, text: str, root: Node, passing: Relay) -> bytes:
    """The scenario's bytes, where each address of a route is that of the relay."""
    node = root.member("routes") if root.kind == "object" else None
    if node is None or node.kind != "list":
        return data
    pieces, end = [], 0
    for pair in node.items:
        address = pair.items[1] if len(pair.items) == 2 else None
        if address is not None and address.kind == "string" and address.value in passing.own:
            pieces += [text[end:address.start], f'"{passing.own[address.value]}"']
            end = address.end
    return "".join([*pieces, text[end:]]).encode("utf-8")


class Said:
    """What is said of a scenario that was played."""

    def __init__(self, data: bytes, is_net: bool, patience: float) -> None:
        text, self.scenario, self.told = played(data, is_net, patience)
        places, found = json_text.Places(text), doubts.doubts(self.scenario, self.told.play, is_net)
        self.warnings = [(*places.of(one.at), one) for one in found]
        self.answer_warnings = lints.of_answers(self.told) if is_net else []

    def data(self) -> dict[str, list[Object]]:
        """As JSON has it; schema/why.schema.json says how."""
        lines = verdicts.summaries(self.told)
        own: list[Object] = [{"line": line, "column": column, **data_of(one)} for line, column, one in self.warnings]
        return {
            "warnings": own + [{key: getattr(warning, key) for key in ("url", "header", "sentence", "lint")}
                               for warning in self.answer_warnings],
            "fetches": [{**one, **findings.of(case), "summary": line}
                        for one, case, line in zip(self.told.data(), self.told.cases, lines)],
            "policies_in_all": [{"document": number, **one.data()}
                                for number, own in self.told.whole_policies.items() for one in own
                                if one.header is None]}

    def brief(self) -> list[str]:
        """The verdicts, and how many warnings there are."""
        names = [one.lint for _, _, one in self.warnings if one.lint] + [one.lint for one in self.answer_warnings]
        count = len(self.warnings) + len(self.answer_warnings)
        return verdicts.brief(self.told) + verdicts.warned(names, count)

    def write(self, name: str) -> None:
        """The verdicts, the warnings, and the play with what is said between its lines."""
        streams.write_lines("# " + line for line in verdicts.heading(self.told))
        rows = [(f"# warning: {name}:{line}:{column}: {one.told}", one.slip) for line, column, one in self.warnings]
        rows += [("# warning: " + one.told(), one.slip) for one in self.answer_warnings]
        streams.write_lines(line for line, _ in lints.told_once(rows))
        for line, own in self.told.pieces():
            streams.write_play(line)
            streams.write_lines(own)


def data_of(doubt: Doubt) -> dict[str, str]:
    """A warning as JSON has it: of a lint its name, the header and the URL too."""
    more = {"lint": doubt.lint, "header": doubt.header, "url": doubt.url} if doubt.lint else {}
    return {"sentence": doubt.sentence, **more}


def why(self: str, name: str, data: bytes, given: Given) -> int:
    """Prints all of it, and gives the status."""
    try:
        found = Said(data, given.net, given.timeout)
    except Wrong as wrong:
        return refused(name, wrong.refusal, given.json)
    except (running.Failed, play_text.NoPlay) as failure:
        return streams.complain(3, f"{self}: {failure}")
    if given.json:
        streams.write_json(found.data())
    elif given.brief:
        streams.write_lines(found.brief())
    else:
        found.write(name)
    return 0


def refused(name: str, refusal: Refusal, as_json: bool) -> int:
    if as_json:
        streams.write_json({"refused": refusal.data()})
        return 1
    return streams.complain(1, "\n".join(refusal.told(name)))


# ---- many scenarios

def serve(given: Given) -> int:
    """Answers each line of standard input, a scenario, by a line of JSON, until they end."""
    for line in sys.stdin.buffer:
        streams.write_json_line(answer(line.rstrip(b"\r\n"), given))
    return 0


def answer(data: bytes, given: Given) -> Object:
    """What is said of one scenario. Whatever it throws costs it alone."""
    try:
        return Said(data, given.net, given.timeout).data()
    except Wrong as wrong:
        return {"refused": wrong.refusal.data()}
    except (running.Failed, play_text.NoPlay) as failure:
        return {"failed": str(failure)}
    except Exception as error:
        return {"failed": streams.fault(error)}
