# What bench/stack.sh runs: scenarios of nearly 4 MB that nest as deep as they may, and the stack that they take.
import os
import re
import resource
import subprocess
import sys

program, work = sys.argv[1], sys.argv[2]
MOST = 4194304
KILOBYTES = [8192, 1024, 512, 256, 128, 64, 48, 32]
problems = []


def filled(front, item, back):
    """So many items between a front and a back that the whole has at most 4,194,304 bytes, and nearly so many."""
    count = (MOST - len(front) - len(back) + 1) // (len(item) + 1)
    return front + b','.join([item] * count) + back


def nested(inner):
    """A command with eight `repeat` and sixteen `if` inside each other by turns, and this list in the innermost."""
    text = inner
    for level in range(24):
        if level % 3 == 0:
            text = b'[{"repeat":1,"do":' + text + b'}]'
        elif level % 3 == 1:
            text = b'[{"if":["error"],"then":[],"else":' + text + b'}]'
        else:
            text = b'[{"if":["ok"],"then":[{"wait":1}],"else":' + text + b'}]'
    return text


def document(script, count=1):
    one = b'{"url":"https://a.test/","script":' + script + b'}'
    return b'{"format":2,"documents":[' + b','.join([one] * count) + b']}'


def around(build, item):
    """A scenario whose innermost list is filled with this item."""
    front, back = build(b'[@]').split(b'@')
    return filled(front, item, back)


WAIT = b'{"wait":1}'
FETCH = b'{"fetch":{"url":"/","mode":"same-origin"}}'
# Name, text, and the status that is wanted.
CASES = [
    ('24 commands deep, the innermost list filled with waits', around(lambda t: document(nested(t)), WAIT), 0),
    ('24 commands deep, filled with fetches', around(lambda t: document(nested(t)), FETCH), 0),
    ('24 commands deep, many such commands one after another', filled(*[
        part for part in (b'{"format":2,"documents":[{"url":"https://a.test/","script":[',
                          nested(b'[{"wait":1}]')[1:-1], b']}]}')]), 0),
    ('24 commands deep in each of 128 documents',
     document(nested(b'[' + b','.join([WAIT] * 2900) + b']'), 128), 0),
    ('a ninth repeat', document(b'[{"repeat":1,"do":' * 9 + b'[]' + b'}]' * 9), 2),
    ('lists 127 deep, the innermost filled with numbers', filled(b'[' * 127, b'1', b']' * 127), 2),
    ('lists 127 deep, one after another', filled(b'[', b'[' * 126 + b']' * 126, b']'), 2),
    ('objects 127 deep, one after another', filled(b'[', b'{"a":' * 126 + b'1' + b'}' * 126, b']'), 2),
    ('4,194,304 opening brackets', b'[' * MOST, 2),
    ('4 MB of opening objects', b'{"a":' * (MOST // 5), 2),
    ('one text of 4 MB with an escape at each place', b'"' + b'\\n' * ((MOST - 2) // 2) + b'"', 2),
    ('a body of 4 MB', filled(
        b'{"format":2,"servers":[{"origin":"https://a.test","rules":[{"status":200,"body":"', b'aaaaaaaaa',
        b'"}]}],"documents":' + b'[{"url":"https://a.test/","script":[' + FETCH + b']}]}'), 0),
]


def limited(kilobytes):
    def limit():
        resource.setrlimit(resource.RLIMIT_STACK, (kilobytes * 1024, kilobytes * 1024))
        resource.setrlimit(resource.RLIMIT_CORE, (0, 0))
    return limit


def played(path, kilobytes):
    """The status of a play with a stack of so many kilobytes, of the first thread and of each other."""
    with open(path, 'rb') as text:
        return subprocess.run([program, 'play'], stdin=text, stdout=subprocess.DEVNULL, stderr=subprocess.DEVNULL,
                              preexec_fn=limited(kilobytes)).returncode


def used(path):
    """The most bytes of its stack that any thread used, as valgrind tells when a thread ends."""
    with open(path, 'rb') as text:
        ran = subprocess.run(['valgrind', '--tool=drd', '--check-stack-var=no', '--show-stack-usage=yes',
                              '--first-race-only=yes', program, 'play'], stdin=text, stdout=subprocess.DEVNULL,
                             stderr=subprocess.PIPE)
    told = re.findall(rb'thread (\d+)(?: \([^)]*\))? finished and used (\d+) bytes out of (\d+)', ran.stderr)
    return [(int(number), int(size), int(whole)) for number, size, whole in told]


for name, text, wanted in CASES:
    assert len(text) <= MOST, name
    path = os.path.join(work, 'scenario')
    with open(path, 'wb') as file:
        file.write(text)
    least = None
    for kilobytes in KILOBYTES:
        status = played(path, kilobytes)
        if kilobytes == 8192 and status != wanted:
            problems.append(f'{name}: status {status}')
        if status != wanted:
            break
        least = kilobytes
    line = f'{name} ({len(text)} bytes): status {wanted} with a stack of {least} kilobytes'
    if '--used' in sys.argv:
        threads = used(path)
        if threads:
            first, others = (max([size for number, size, _ in threads if (number == 1) is is_first], default=0)
                             for is_first in (True, False))
            line += f'; the most that a thread used: {first} bytes (first thread), {others} bytes (others)'
    print(line)
    sys.stdout.flush()

for problem in problems:
    print(f'PROBLEM: {problem}')
print(f'{len(problems)} problems')
sys.exit(1 if problems else 0)
