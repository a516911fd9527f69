"""A play with the answers of the servers and the explanations between its lines. Each line that is not of the play
begins with `<` or `#`, so the play is what is left without them."""
from __future__ import annotations

import functools
from typing import TYPE_CHECKING

from fiorrudda.commands import answers, known_hosts
from fiorrudda.commands.case import Case
from fiorrudda.commands.explanations import explain, explain_policies
from fiorrudda.commands.notes import notes, of_local_networks, of_sites

if TYPE_CHECKING:
    from collections.abc import Callable, Iterator

    from fiorrudda.commands.answers import Answer
    from fiorrudda.commands.play_text import Play, Send
    from fiorrudda.commands.relay import Relay
    from fiorrudda.commands.scenario import Scenario
    from fiorrudda.commands.shapes import Object
    from fiorrudda.commands.whole_policies import Whole

LONGEST = 200  # bytes of a line


class Told:
    """All that is known of a play. `answer_of(request)` gives the answer to a request, or None."""

    def __init__(self, scenario: Scenario, play: Play, answer_of: Callable[[Send], Answer | None],
                 is_net: bool | str = False) -> None:
        scenario.attach(play)
        self.scenario = scenario
        self.play = play
        self.cases = [Case(scenario, fetch, [(request, answer_of(request)) for request in fetch.of("send")], is_net)
                      for fetch in play.fetches()]
        known_hosts.tell(scenario, self.cases)
        for case in self.cases:
            case.explanation = explain(case)
            case.policies_told = explain_policies(case)
            case.notes = notes(case)
            case.result.verdict = case.verdict
        if is_net != "direct":  # bin/ask says it of its own cookies
            for case, note in of_sites(self.cases):
                case.notes.append(note)
        for case, note in of_local_networks(self.cases):
            case.notes.append(note)

    def pieces(self) -> Iterator[tuple[str, list[str]]]:
        """The lines in order: those of the play, and lists of our own."""
        behind: dict[int, list[str]] = {}
        for case in self.cases:
            for request, answer in case.exchanges:
                behind.setdefault(request.last, []).extend("< " + line for line in answer_lines(answer))
            behind.setdefault(case.result.last, []).extend("# " + line for line in own_lines(case))
        for document in self.play.documents:
            wholes = self.whole_policies.get(document.number, [])
            behind.setdefault(document.last, []).extend("# " + one.line() for one in wholes if one.is_told)
        for number, line in enumerate(self.play.lines, 1):
            yield line, behind.get(number, [])

    @functools.cached_property
    def whole_policies(self) -> dict[int, list[Whole]]:
        """By the number of a document each of its policies that has changes, with all of them."""
        by_document: dict[int, list[Case]] = {}
        for case in self.cases:
            by_document.setdefault(case.fetch.document.number, []).append(case)
        known = {number: own for number, own in by_document.items()
                 if own[0].document.get("headers") and (own[0].policies or self.scenario.unread_policies(number))}
        if not known:
            return {}
        from fiorrudda.commands.whole_policies import whole
        return {number: whole(self.scenario, number, own) for number, own in known.items()}

    def data(self) -> list[Object]:
        return [case_data(case) for case in self.cases]


def own_lines(case: Case) -> list[str]:
    """What is to be said of a fetch behind its result."""
    lines = ["note: " + note for note in case.notes] + (case.explanation.lines() if case.explanation else [])
    return lines + [line for policy in case.policies_told for line in policy.lines()]


def shown(data: bytes) -> str:
    """Bytes on one line, as they are where they can be shown, else by their numbers."""
    text = "".join(chr(byte) if 32 <= byte < 127 else f"\\x{byte:02x}" for byte in data[:LONGEST])
    return text + (f" ... ({len(data) - LONGEST} bytes more)" if len(data) > LONGEST else "")


def answer_lines(answer: Answer | None) -> list[str]:
    """The head as it came, and how long the body is: of a scripted server, since how much of a real one's came before
    the connection was closed depends on time."""
    if answer is None:
        return []
    if answer.head is None:
        return [headless_line(answer)]
    lines = [shown(line) for line in answer.data[:answer.head.end].strip(b"\r\n").splitlines()]
    return lines + ([f"({len(answer.data) - answer.head.end} bytes follow)"] if answer.is_scripted else [])


def headless_line(answer: Answer) -> str:
    """What came in the place of a head."""
    if not answer.data:
        return "(nothing came)"
    if answer.is_scripted:
        return shown(answer.data)
    return shown(answer.data[:LONGEST]) + (" ..." if len(answer.data) > LONGEST else "")


def case_data(case: Case) -> Object:
    result = case.result
    return {
        "document": case.fetch.document.number, case.fetch.name.split()[0]: case.fetch.number,
        "line": case.fetch.line, "url": case.command.url, "verdict": case.verdict, "result": result.short(),
        "type": result.type,
        "status": result.status, "headers": result.headers,
        "body": None if result.body is None else result.body.decode("utf-8", "replace"),
        "requests": [request_data(request, answer) for request, answer in case.exchanges],
        "notes": case.notes,
        "why": case.explanation.data() if case.explanation else None,
        "policies": [policy.data() for policy in case.policies_told],
    }


def request_data(request: Send, answer: Answer | None) -> Object:
    head = answer.head if answer else None
    return {"origin": request.origin, "method": request.method, "target": request.target, "headers": request.headers,
            "answer": None if head is None else {"status": head.status, "headers": head.headers}}


def scripted(scenario: Scenario, play: Play) -> Told:
    return Told(scenario, play, lambda request: answers.scripted(scenario, request))


class Recorded:
    """The answers that a relay has kept, for the requests of a play: each request takes the first connection that
    carried it."""

    def __init__(self, scenario: Scenario, relay: Relay) -> None:
        self.scenario = scenario
        self.left = list(relay.connections)

    def answer_of(self, request: Send) -> Answer:
        address = self.scenario.route_of(request.origin)
        head = (f"{request.method} {request.target} HTTP/1.1\r\nHost: {request.origin.partition('://')[2]}\r\n")
        for connection in self.left:
            if connection.address == address and connection.request.startswith(head.encode("latin-1")):
                self.left.remove(connection)
                answer = answers.Answer(connection.answer, link=connection.link)
                answer.is_ended = connection.is_ended
                return answer
        return answers.Answer(b"", link="bad-address" if address is not None else "no-route")


def recorded(scenario: Scenario, play: Play, relay: Relay) -> Told:
    return Told(scenario, play, Recorded(scenario, relay).answer_of, is_net=True)
