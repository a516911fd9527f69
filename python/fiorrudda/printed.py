"""Acts and outcomes as the lines that `fetchplay play` prints of them (docs/rules/printed-text.md)."""
from typing import Callable, Dict, Iterable, List, Optional, Union

from .engine import NoRequest
from .whole import Call, Loaded, NetworkError, Outcome, Pairs, Send, Tell


def escaped(data: Union[bytes, str]) -> str:
    """Bytes on one line: those that are not printable, and the backslash, by their numbers."""
    data = data if isinstance(data, bytes) else data.encode("latin-1")
    return "".join(chr(it) if 0x20 <= it < 0x7F and it != 0x5C else f"\\x{it:02x}" for it in data)


def _listed(texts: Iterable[str]) -> str:
    return ",".join(texts) or "()"


def call_line(call: Call, reply: Optional[bool]) -> str:
    """A call of the book, and its reply."""
    include = "include" if call.include else "other"
    made: Dict[str, Callable[[], List[object]]] = {
        "match": lambda: [call.host],
        "note": lambda: [call.host, call.age, "sub" if call.include_subdomains else "exact"],
        "covers": lambda: [call.key, call.origin, include, call.method or "()", _listed(call.names), call.url],
        "learn": lambda: [call.key, call.origin, include, call.age, _listed(call.methods), _listed(call.names),
                          call.url],
        "clear": lambda: [call.key, call.origin, call.url],
    }
    words = made[call.name]()
    said = {True: "yes", False: "no", None: "done"}[reply]
    return f"{call.name} {' '.join(map(str, words))} at {call.time}: {said}"


def _header_lines(pairs: Pairs) -> List[str]:
    return [f"  {escaped(name)}: {escaped(value)}" for name, value in pairs]


def sent_lines(act: Send) -> List[str]:
    """A request that is sent."""
    body = [] if act.body is None else [f"  body {len(act.body)}: {escaped(act.body)}"]
    return [f"send {act.origin}", f"  {act.method} {escaped(act.url)} HTTP/1.1", *_header_lines(act.headers), *body]


def violation_line(act: Tell) -> str:
    """A violation that the document is told of."""
    return f"violation {act.policy} {'enforce' if act.enforced else 'report'} {act.directive} {act.url}"


def fault_line(fault: NoRequest, loads: bool) -> str:
    """Why no request can be made."""
    header = [] if fault.header is None else [fault.header]
    return f"result {'failed ' * loads}type-error {' '.join(map(str, [fault.number, fault.name, *header]))}"


def outcome_lines(outcome: Outcome, loads: bool) -> List[str]:
    """What a fetch came to, or a load."""
    if isinstance(outcome, Loaded):
        return ["result loaded"]
    if isinstance(outcome, NetworkError):
        header = [] if outcome.header is None else [outcome.header]
        return [f"result {'failed' if loads else 'error'} "
                f"{' '.join(map(str, [outcome.number, outcome.name, *header]))}"]
    end = {"null": "none", "whole": f"whole {outcome.count}: {escaped(outcome.body or b'')}", "toobig": "toobig"}
    body = end.get(outcome.end, f"{outcome.end} {outcome.count}")
    url = "()" if outcome.url is None else outcome.url
    return [f"result {outcome.kind} {outcome.status} {url}", *_header_lines(outcome.headers), f"  body {body}"]
