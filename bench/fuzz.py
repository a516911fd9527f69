#!/usr/bin/env python3
"""Plays bad scenarios and odd answers with the proved program, outside the gate.

    bench/fuzz.py [--seed N] [--scenarios N] [--answers N] [--jobs N]
    bench/fuzz.py [--seed N] --show scenario|answer NUMBER

It makes 20,000 scenarios and 20,000 answers by mutation of those in examples/, by a seed, so that a run can be
repeated; --show prints the input of one of them. Each is played on its own. Wanted of each play: status 0 with an
output that ends in the line `done` and no complaint, or status 2 with no output and the one line `fetchplay: scenario
refused at PLACE`; at most 2 seconds (where it took longer, on a machine that is busy, it is played once again) and 64
MB. Looked at besides: a scenario is refused at `json` exactly where Python reads no JSON tree that is 127 deep at most;
an answer comes to the same in small pieces, in pieces of 4,096 bytes and of 65,536; and of an answer to a fetch of the
own origin the script sees what bench/answers.py reads from it. FETCHPLAY is the path of the program, where it is not to
be built."""
import argparse
import copy
import json
import multiprocessing
import os
import random
import re
import resource
import signal
import subprocess
import sys
import time

from answers import seen

HERE = os.path.dirname(os.path.abspath(__file__))
EXAMPLES = os.path.join(HERE, '..', 'examples')
MOST_SECONDS = 2.0
MOST_KILOBYTES = 64 * 1024
REFUSAL = re.compile(rb'fetchplay: scenario refused at (json|/|(/[a-z0-9_]+)+)\n')
SIZES = [1, 2, 3, 7, 64]


# --- what there is to mutate

def examples():
    names = sorted(name for name in os.listdir(EXAMPLES) if name.endswith('.json'))
    texts = []
    for name in names:
        with open(os.path.join(EXAMPLES, name), 'rb') as file:
            texts.append(file.read())
    return texts


def answers_of(tree):
    """The bytes of the answers that a scenario's rules have."""
    for server in tree.get('servers', []):
        for rule in server.get('rules', []):
            if 'raw' in rule:
                yield rule['raw'].encode()
            else:
                lines = ''.join(f'{name}: {value}\r\n' for name, value in rule.get('headers', []))
                yield f"HTTP/1.1 {rule['status']} Scripted\r\n{lines}\r\n{rule.get('body', '')}".encode()


TEXTS = examples()
TREES = []
for text in TEXTS:
    try:
        TREES.append(json.loads(text))
    except ValueError:
        pass
TREES = [tree for tree in TREES if isinstance(tree, dict)]
ANSWERS = []
for tree in TREES:
    try:
        ANSWERS.extend(answers_of(tree))
    except (KeyError, TypeError, AttributeError):
        pass
ANSWERS += [
    b'HTTP/1.1 200 OK\r\nTransfer-Encoding: chunked\r\n\r\n2\r\nhi\r\n3;x=y\r\nabc\r\n0\r\nT: v\r\n\r\n',
    b'HTTP/1.1 100 Continue\r\n\r\nHTTP/1.1 200 OK\r\nContent-Length: 5\r\n\r\nhello',
    b'HTTP/1.0 200\nA: b\n\nbody to the end',
    b'HTTP/1.1 302 Found\r\nLocation: /next\r\nReferrer-Policy: origin\r\n\r\n',
    b'HTTP/1.1 200 OK\r\nContent-Type: text/html;charset=utf-8\r\nX-Content-Type-Options: nosniff\r\n\r\n<p>',
    b'HTTP/1.1 204 No Content\r\nStrict-Transport-Security: max-age=31536000; includeSubDomains\r\n\r\n',
    b'HTTP/1.1 200 OK\r\nAccess-Control-Allow-Origin: *\r\nAccess-Control-Expose-Headers: X-A, X-B\r\nX-A: 1\r\n\r\nx',
    b'HTTP/1.1 200 OK\r\nAccess-Control-Allow-Methods: PUT, DELETE\r\nAccess-Control-Allow-Headers: x-a\r\n'
    b'Access-Control-Max-Age: 600\r\nAccess-Control-Allow-Origin: https://a.test\r\n\r\n',
]

# Pieces that a mutation puts in: of JSON, of the format, of HTTP/1.1.
SCENARIO_BITS = [
    b'{', b'}', b'[', b']', b',', b':', b'"', b'\\', b'null', b'true', b'false', b'0', b'-1', b'1.0', b'1e0', b'-0',
    b'1e999', b'18446744073709551616', b'4294967296', b'281474976710656', b'1099511627777', b'65537', b'1001', b'\xff',
    b'\xc3\x28', b'\x00', b'\\u0000', b'\\ud800', b'\\u000a', b'${', b'${body}', b'${header:x}', b'${x}',
    b'"format":2,', b'"format":1,', b'"body_limit":1,', b'"piece":1,', b'"now":5,',
    b'"raw":"HTTP/1.1 200\\r\\n\\r\\n",', b'"repeat":1000,"do":[]', b'{"repeat":3,"do":[{"wait":1}]},',
    b'{"if":["ok"],"then":[]},', b'{"wait":4294967295},', b'{"fetch":{"url":"/"}},', b'"top":"https://t.test/",',
    b'"method":"PUT",', b'"mode":"no-cors",', b'"credentials":"include",', b'"body":"",', b'"headers":[["A","b"]],',
    b'"referrer":"none",', b'"integrity":"sha256-a",', b'"upload":true,', b'https://', b'//', b'http://u:p@a.test/',
    b'ftp://a/', b'[::1]', b'%00', b'xn--a', b'.localhost', b'#x', b'?y', b'/../', b' ', b'\t', b'\n',
]
ANSWER_BITS = [
    b'\r\n', b'\n', b'\r', b'\r\n\r\n', b'\n\n', b' ', b'\t', b':', b';', b',', b'"', b'\x00', b'\x7f', b'\xff',
    b'\x80', b'HTTP/1.1 ', b'HTTP/1.0 ', b'HTTP/2 ', b'100 Continue\r\n\r\n', b'HTTP/1.1 101 \r\n\r\n',
    b'HTTP/1.1 103\r\n\r\n', b'200', b'204', b'304', b'999', b'000', b'301', b'303', b'307', b'Location: /\r\n',
    b'Location: https://b.test/\r\n', b'Location: ftp://a\r\n', b'Location:\r\n', b'Content-Length: 3\r\n',
    b'Content-Length: 0\r\n', b'Content-Length: 3, 3\r\n', b'Content-Length: 99999999999999999999\r\n',
    b'Content-Length: -1\r\n', b'Content-Length: +1\r\n', b'Transfer-Encoding: chunked\r\n',
    b'Transfer-Encoding: gzip, chunked\r\n', b'Content-Encoding: gzip\r\n', b'0\r\n\r\n', b'5\r\nhello\r\n',
    b'FFFFFFFFFFFFFFFF\r\n', b'00000000000000001\r\n', b'1;x\r\na\r\n', b'1\na', b'T: v\r\n', b' folded\r\n',
    b'A : b\r\n', b'Strict-Transport-Security: max-age=1\r\n', b'Strict-Transport-Security: max-age="\r\n',
    b'Access-Control-Allow-Origin: *\r\n', b'Access-Control-Allow-Credentials: true\r\n',
    b'Access-Control-Max-Age: x\r\n', b'Access-Control-Allow-Methods: ,,\r\n', b'Access-Control-Allow-Headers: *\r\n',
    b'Cross-Origin-Resource-Policy: same-site\r\n', b'X-Content-Type-Options: nosniff\r\n',
    b'Content-Type: */*, text/css\r\n', b'Set-Cookie: a=b\r\n', b'Referrer-Policy: no-referrer\r\n', b'a' * 4096,
    b'a' * 65536, b'A: b\r\n' * 129, b'1\r\na\r\n' * 500, b'\r\n' * 300, b'HTTP/1.1 100 \r\n\r\n' * 100,
]
LINES = [bit[:-2] for bit in ANSWER_BITS if bit.endswith(b'\r\n') and b': ' in bit and bit.count(b'\n') == 1]
VALUES = [
    None, True, False, 0, 1, -1, 2, 1.0, 1e300, 65535, 65536, 65537, 2 ** 32 - 1, 2 ** 32, 2 ** 48, 2 ** 64, '', ' ',
    'a', 'x' * 9000, '\u0000', '\n', '\u00e9', '\ud83d\ude00', '${status}', '${', '$', 'https://a.test',
    'https://a.test/', 'http://b.test/x?y#z', '//', 'ftp:', 'GET', 'PUT', 'cors', 'navigate', 'error', 'include',
    'none', 'client', 'script', [], {}, [[]], [1], ['ok'], ['status', 1000], ['type', 'cors'], [['A', 'b']],
    [['A', 'b', 'c']], {'fetch': {'url': '/'}}, {'load': {'kind': 'image', 'url': '/i'}}, [{'wait': 1}],
    {'repeat': 2, 'do': [{'fetch': {'url': '/'}}]}, {'if': ['ok'], 'then': []},
]
KEYS = [
    'format', 'body_limit', 'now', 'hsts', 'cookies', 'servers', 'routes', 'piece', 'documents', 'origin', 'rules',
    'method', 'path', 'raw', 'status', 'headers', 'body', 'url', 'top', 'script', 'fetch', 'load', 'wait', 'repeat',
    'do', 'if', 'then', 'else', 'mode', 'credentials', 'redirect', 'referrer', 'referrer_policy', 'integrity', 'upload',
    'kind', 'crossorigin', 'nonce', 'parser', 'host', 'subdomains', 'until', '', 'x',
]


# --- mutations

def mutate_bytes(rng, text, bits, others):
    """A few changes to a text as bytes."""
    text = bytearray(text)
    for _ in range(1 + int(rng.expovariate(0.5))):
        place = rng.randrange(len(text) + 1)
        end = min(len(text), place + 1 + int(rng.expovariate(0.1)))
        kind = rng.randrange(9)
        if kind == 0 and text:
            text[rng.randrange(len(text))] ^= 1 << rng.randrange(8)
        elif kind == 1:
            text[place:place] = bytes([rng.randrange(256)])
        elif kind == 2:
            del text[place:end]
        elif kind == 3:
            text[place:place] = text[place:end] * rng.choice([1, 2, 10])
        elif kind in (4, 5):
            text[place:place] = rng.choice(bits)
        elif kind == 6:
            text[place:end] = rng.choice(bits)
        elif kind == 7:
            other = rng.choice(others)
            cut = rng.randrange(len(other) + 1)
            text[place:] = other[cut:]
        elif rng.randrange(4) == 0:
            del text[place:]
    return bytes(text)


def places(tree, path=()):
    """All places of a tree."""
    yield path
    if isinstance(tree, dict):
        for key, value in tree.items():
            yield from places(value, path + (key,))
    elif isinstance(tree, list):
        for index, value in enumerate(tree):
            yield from places(value, path + (index,))


def deep(rng, value):
    """A value inside many lists or objects."""
    for _ in range(rng.choice([2, 9, 17, 60, 126, 128, 200])):
        value = rng.choice([[value], {'do': [value], 'repeat': 1}, {'if': ['ok'], 'then': [value]}])
    return value


def mutate_tree(rng, tree):
    """A few changes to a scenario as a tree, as a text."""
    tree = json.loads(json.dumps(tree))
    is_deep = False
    for _ in range(1 + int(rng.expovariate(0.5))):
        path = rng.choice(list(places(tree)))
        if not path:
            continue
        parent = tree
        for key in path[:-1]:
            parent = parent[key]
        key, value = path[-1], parent[path[-1]]
        kind = rng.randrange(9)
        if kind == 0:
            del parent[key]
        elif kind == 1 and isinstance(parent, dict):
            parent[rng.choice(KEYS)] = parent.pop(key)
        elif kind == 2 and isinstance(parent, dict):
            parent[rng.choice(KEYS)] = copy.deepcopy(rng.choice(VALUES))
        elif kind == 3 and isinstance(parent, list):
            parent.insert(key, copy.deepcopy(rng.choice(VALUES)))
        elif kind == 4 and isinstance(parent, list):
            parent[key:key] = [copy.deepcopy(value) for _ in range(rng.choice([1, 2, 64, 128]))]
        elif kind == 5 and not is_deep:
            is_deep = True
            parent[key] = deep(rng, value)
        elif kind == 6 and isinstance(value, str):
            given = value.encode('utf-8', 'surrogatepass')
            parent[key] = mutate_bytes(rng, given, SCENARIO_BITS, TEXTS).decode('latin-1')
        elif kind == 7 and isinstance(value, int):
            parent[key] = rng.choice([value + 1, value - 1, -value, value * 1000, value + 0.5, str(value)])
        else:
            parent[key] = copy.deepcopy(rng.choice(VALUES))
    return json.dumps(tree, ensure_ascii=rng.randrange(2) == 0).encode('utf-8', 'surrogatepass')


def rng_of(seed, kind, number):
    return random.Random(f'{seed} {kind} {number}')


def bad_scenario(seed, number):
    """A scenario by mutation of an example, as bytes or as a tree."""
    rng = rng_of(seed, 'scenario', number)
    if rng.randrange(2):
        return mutate_bytes(rng, rng.choice(TEXTS), SCENARIO_BITS, TEXTS)
    return mutate_tree(rng, rng.choice(TREES))


OWN = ('https://a.test/', {'url': '/', 'mode': 'same-origin', 'referrer': 'none'})
SCRIPTS = [OWN] * 5 + [
    ('https://b.test/', {'url': 'https://a.test/'}),
    ('https://b.test/', {'url': 'https://a.test/', 'mode': 'no-cors'}),
    ('https://b.test/', {'url': 'https://a.test/x', 'method': 'PUT', 'credentials': 'include'}),
    ('https://a.test/', {'url': '/', 'redirect': 'manual'}),
    ('https://a.test/', {'url': '/', 'method': 'HEAD'}),
    ('https://a.test/', {'url': '/', 'integrity': 'sha256-ungWv48Bz+pBQUDeXa4iI7ADYaOWF3qctBD/YfIAFa0='}),
    ('https://a.test/', {'kind': 'script', 'url': '/s.js'}),
    ('https://b.test/', {'kind': 'style', 'url': 'https://a.test/s.css', 'crossorigin': 'anonymous'}),
    ('http://a.test/', {'kind': 'image', 'url': 'https://a.test/i.png'}),
]


def with_lines(rng, raw, few):
    """An answer with other header lines, or with one line that is changed, and with another body."""
    head, end, body = raw.partition(b'\r\n\r\n')
    lines = head.split(b'\r\n')
    for _ in range(rng.choice([0, 1, 1, 2, 3])):
        lines.insert(rng.randrange(1, len(lines) + 1), rng.choice(LINES))
    if few:
        place = rng.randrange(len(lines))
        lines[place] = mutate_bytes(rng, lines[place], ANSWER_BITS, LINES)
    if rng.randrange(3):
        bodies = [body, b'2\r\nhi\r\n0\r\n\r\n', b'a\r\n0123456789\r\n0\r\nT: v\r\n\r\n', b'hello']
        body = mutate_bytes(rng, rng.choice(bodies), ANSWER_BITS, ANSWERS)
    return rng.choice([b'\r\n', b'\r\n', b'\r\n', b'\n']).join(lines) + end + body


def odd_answer(seed, number):
    """The parts of a scenario whose server gives an answer by mutation of one, and a small size of its pieces."""
    rng = rng_of(seed, 'answer', number)
    raw = rng.choice(ANSWERS)
    kind = rng.randrange(3)
    if kind == 0:
        raw = mutate_bytes(rng, raw, ANSWER_BITS, ANSWERS)
    else:
        raw = with_lines(rng, raw, kind == 2)
    url, init = rng.choice(SCRIPTS)
    command = {'load': init} if 'kind' in init else {'fetch': init}
    # What came is put into the next request, which the same answer is given to.
    again = {'fetch': {'url': '/${status}${header:x-a}', 'headers': [['X-Body', '${body}']], 'mode': 'same-origin'}}
    script = [command, {'if': ['error'], 'then': [{'wait': 1}], 'else': [again]}] if rng.randrange(2) else [command]
    document = {'url': url, 'script': script}
    if rng.randrange(4) == 0:
        document['headers'] = [['Content-Security-Policy', 'connect-src a.test; upgrade-insecure-requests']]
    rule = {'raw': raw.decode('latin-1')}
    scenario = {'format': 2, 'body_limit': rng.choice([1, 3, 1000, 1048576]),
                'servers': [{'origin': 'https://a.test', 'rules': [rule]}], 'documents': [document]}
    return scenario, rng.choice(SIZES)


def in_pieces(scenario, size):
    return json.dumps(dict(scenario, piece=size), ensure_ascii=False).encode()


# --- what is known of a play beforehand

def texts_of(tree):
    level = [tree]
    while level:
        one = level.pop()
        if isinstance(one, str):
            yield one
        elif isinstance(one, float):
            yield '' if abs(one) != float('inf') else '\ud800'
        elif isinstance(one, list):
            level.extend(one)
        elif isinstance(one, dict):
            level.extend(one.keys())
            level.extend(one.values())


def no_constant(name):
    raise ValueError(name)


def every_pair(pairs):
    """An object as a list of all its pairs, equal keys too."""
    return [[key, value] for key, value in pairs]


def is_tree(text):
    """Whether a text is a JSON tree, 127 deep at most, with no half of a surrogate pair and no number out of range."""
    try:
        decoded = text.decode('utf-8')
        if decoded.startswith('\ufeff'):
            return False
        every = json.loads(decoded, parse_constant=no_constant, object_pairs_hook=every_pair)
    except (ValueError, RecursionError):
        return False
    return nesting(decoded) <= 127 and not any('\ud800' <= c <= '\udfff' for one in texts_of(every) for c in one)


def nesting(text):
    """How deep brackets are inside each other in a JSON text."""
    depth = most = 0
    for bracket in re.findall(r'"(?:[^"\\]|\\.)*"|[\[\]{}]', text):
        if bracket in '[{':
            depth += 1
            most = max(most, depth)
        elif bracket in ']}':
            depth -= 1
    return most


def first_result(output):
    """The lines of the first result of a play."""
    found = re.search(rb'^result .*\n(?:  .*\n)*', output, re.MULTILINE)
    return found[0] if found else b''


# --- plays

class Slow(Exception):
    pass


def on_alarm(_signal, _frame):
    raise Slow


def play(program, text):
    """Status (128 more than a signal that ended it), output, complaints, seconds, kilobytes at the peak.

    GNU time is in between, since the peak that the system tells of a process begins with that of its starter.
    """
    files = [os.memfd_create('fuzz') for _ in range(4)]
    try:
        if text:
            os.write(files[0], text)
            os.lseek(files[0], 0, os.SEEK_SET)
        start = time.monotonic()
        actions = [(os.POSIX_SPAWN_DUP2, file, number) for number, file in enumerate(files)]
        words = ['/usr/bin/time', '-q', '-f', '%M', '-o', '/dev/fd/3', program, 'play']
        process = os.posix_spawn(words[0], words, os.environ, file_actions=actions, setsid=True)
        signal.setitimer(signal.ITIMER_REAL, 20)
        try:
            _, state = os.waitpid(process, 0)
        except Slow:
            os.killpg(process, signal.SIGKILL)
            _, state = os.waitpid(process, 0)
        finally:
            signal.setitimer(signal.ITIMER_REAL, 0)
        seconds = time.monotonic() - start
        outputs = []
        for file in files[1:]:
            os.lseek(file, 0, os.SEEK_SET)
            with os.fdopen(os.dup(file), 'rb') as opened:
                outputs.append(opened.read())
        kilobytes = int((outputs[2].split() or [b'0'])[-1])
        return os.waitstatus_to_exitcode(state), outputs[0], outputs[1], seconds, kilobytes
    finally:
        for file in files:
            os.close(file)


def judged(program, text):
    """A play, and what is wrong with it."""
    ran = play(program, text)
    if ran[3] > MOST_SECONDS:
        ran = play(program, text)
    status, output, complaints, seconds, kilobytes = ran
    wrong = []
    if status == 0:
        if not output.startswith(b'fetchplay 1\n') or not output.endswith(b'\ndone\n') or complaints:
            wrong.append('status 0 with another output or a complaint')
    elif status == 2:
        if output or not REFUSAL.fullmatch(complaints):
            wrong.append(f'status 2 with an output or another complaint {complaints[:100]!r}')
    else:
        wrong.append(f'status {status}, complaints {complaints[:100]!r}')
    if seconds > MOST_SECONDS:
        wrong.append(f'{seconds:.1f} seconds')
    if kilobytes > MOST_KILOBYTES:
        wrong.append(f'{kilobytes} kilobytes')
    return ran, wrong


RESULT = re.compile(rb'^(?:result (?:basic|cors|opaqueredirect|opaque|loaded|type-error \d+|error \d+'
                    rb'|failed type-error \d+|failed \d+)|  body [a-z]+)', re.MULTILINE)


def kinds_of(ran):
    """What a play showed: the place of its refusal, its numbers left out, or the kinds of its results."""
    if ran[0] == 2:
        return [re.sub(rb'/\d+', b'/N', ran[2].split(b' at ')[-1].strip())]
    return [found.strip() for found in RESULT.findall(ran[1])]


class Counts:
    def __init__(self):
        self.plays = 0
        self.checked = 0
        self.statuses = {}
        self.kinds = {}
        self.seconds = 0.0
        self.kilobytes = 0
        self.wrong = []

    def note(self, name, ran, wrong):
        self.plays += 1
        self.statuses[ran[0]] = self.statuses.get(ran[0], 0) + 1
        for kind in kinds_of(ran):
            self.kinds[kind] = self.kinds.get(kind, 0) + 1
        self.seconds = max(self.seconds, ran[3])
        self.kilobytes = max(self.kilobytes, ran[4])
        self.wrong.extend(f'{name}: {one}' for one in wrong)

    def add(self, other):
        self.plays += other.plays
        self.checked += other.checked
        for mine, theirs in ((self.statuses, other.statuses), (self.kinds, other.kinds)):
            for key, count in theirs.items():
                mine[key] = mine.get(key, 0) + count
        self.seconds = max(self.seconds, other.seconds)
        self.kilobytes = max(self.kilobytes, other.kilobytes)
        self.wrong.extend(other.wrong)


def worker(job):
    """Plays the cases of a kind from one number to another."""
    program, seed, kind, first, last = job
    signal.signal(signal.SIGALRM, on_alarm)
    counts = Counts()
    for number in range(first, last):
        name = f'{kind} {number}'
        if kind == 'scenario':
            text = bad_scenario(seed, number)
            ran, wrong = judged(program, text)
            if (ran[0] == 2 and b' at json\n' in ran[2]) == is_tree(text):
                wrong.append(f'refused at json where it is a tree, or the other way round: {ran[2][:80]!r}')
            counts.note(name, ran, wrong)
            continue
        scenario, size = odd_answer(seed, number)
        outputs = []
        for pieces in (size, 4096, 65536):
            ran, wrong = judged(program, in_pieces(scenario, pieces))
            counts.note(f'{name} in pieces of {pieces}', ran, wrong)
            outputs.append(ran[:3])
        if any(output != outputs[0] for output in outputs):
            counts.wrong.append(f'{name}: not the same in pieces of {size}, 4096 and 65536')
        document = scenario['documents'][0]
        if (document['url'], document['script'][0].get('fetch')) == OWN:
            raw = scenario['servers'][0]['rules'][0]['raw'].encode()
            expected = seen(raw, b'https://a.test/', scenario['body_limit'])
            if expected is not None:
                counts.checked += 1
                result = first_result(outputs[0][1])
                if result != expected:
                    counts.wrong.append(f'{name}: the script sees {result[:200]!r} and not {expected[:200]!r}')
    return counts


def fuzz(program, seed, kind, count, jobs):
    step = 250
    work = [(program, seed, kind, first, min(first + step, count)) for first in range(0, count, step)]
    counts = Counts()
    start = time.monotonic()
    with multiprocessing.Pool(jobs) as pool:
        for part in pool.imap_unordered(worker, work):
            counts.add(part)
    statuses = ', '.join(f'status {status}: {plays}' for status, plays in sorted(counts.statuses.items()))
    print(f'{count} {kind}s, {counts.plays} plays: {statuses}; at most {counts.seconds:.2f} s and '
          f'{counts.kilobytes / 1024:.1f} MB; {len(counts.wrong)} wrong; {int(time.monotonic() - start)} s in all')
    if counts.checked:
        print(f'  {counts.checked} of them read by other code too')
    frequent = sorted(counts.kinds.items(), key=lambda one: -one[1])[:24]
    shown = ', '.join(f'{key.decode()} {number}' for key, number in frequent)
    print(f'  {len(counts.kinds)} kinds, the most frequent: {shown}')
    for wrong in counts.wrong[:20]:
        print(f'  WRONG: {wrong}')
    sys.stdout.flush()
    return not counts.wrong


def built():
    program = os.environ.get('FETCHPLAY')
    if program:
        return program
    script = f'source {HERE}/common.bash; build_fetchplay; echo "$program"'
    return subprocess.run(['bash', '-c', script], check=True, capture_output=True).stdout.decode().split('\n')[-2]


def main():
    parser = argparse.ArgumentParser()
    parser.add_argument('--seed', type=int, default=23)
    parser.add_argument('--scenarios', type=int, default=20000)
    parser.add_argument('--answers', type=int, default=20000)
    parser.add_argument('--jobs', type=int, default=os.cpu_count())
    parser.add_argument('--show', nargs=2)
    words = parser.parse_args()
    if words.show:
        kind, number = words.show[0], int(words.show[1])
        if kind == 'scenario':
            sys.stdout.buffer.write(bad_scenario(words.seed, number))
        else:
            sys.stdout.buffer.write(in_pieces(*odd_answer(words.seed, number)))
        return 0
    resource.setrlimit(resource.RLIMIT_CORE, (0, 0))
    program = built()
    print(f'seed {words.seed}')
    fine = fuzz(program, words.seed, 'scenario', words.scenarios, words.jobs)
    fine = fuzz(program, words.seed, 'answer', words.answers, words.jobs) and fine
    return 0 if fine else 1


if __name__ == '__main__':
    sys.exit(main())
