# What bench/memory.sh runs: plays with refused memory, and what may come of them.
import os
import re
import subprocess
import sys
from concurrent.futures import ThreadPoolExecutor

program, shim, work, jobs, threads_program = sys.argv[1], sys.argv[2], sys.argv[3], int(sys.argv[4]), sys.argv[5]
crates = os.path.join(os.path.dirname(os.path.abspath(__file__)), '..', 'crates')
rows = os.path.join(crates, 'rows_plays')
COMPLAINT = b'fetchplay: out of memory\n'
# Without memory for its words, which are its first requests, the program has none, before anything is read.
MOST_WORDS = 32
USAGE = b'fetchplay: usage: fetchplay play | net | gen N\n'
problems = []


def worked(title):
    """The scenario of the worked row under this title, and what is stored of its play."""
    with open(os.path.join(rows, 'stdin'), 'rb') as file:
        rows_in = file.read().split(b'\n\n')
    with open(os.path.join(rows, 'stdout'), 'rb') as file:
        rows_out = file.read().split(b'\n\n')
    row = next(block for block in rows_in if block.startswith(title)).split(b'\n')[1]
    stored = next(block for block in rows_out if block.startswith(title)).split(b'\n', 2)[2]
    return row.split(b'\t')[-1], stored + b'\n'


def run(words, text, number, later, program=program):
    """Status, output, complaints, and how many requests for memory there were and were refused."""
    count = os.path.join(work, f"count.{''.join(words)}.{number}.{later}")
    environment = dict(os.environ, LD_PRELOAD=shim, REFUSE=str(number), REFUSE_LATER=str(later), REFUSE_COUNT=count)
    ran = subprocess.run([program] + words, input=text, capture_output=True, env=environment, timeout=60)
    try:
        with open(count) as file:
            asked, refused = map(int, file.read().split())
        os.remove(count)
    except (OSError, ValueError):
        asked, refused = None, None
    return ran.returncode, ran.stdout, ran.stderr, asked, refused


def is_plain(stored):
    """Whether an output is the stored one, or a beginning of it."""
    return (lambda output: output == stored), (lambda output: stored.startswith(output))


def is_shared(stored):
    """The same of a play of documents on threads, whose calls of the book come in any order."""
    documents, rest = stored.split(b'\nentries ', 1)
    documents += b'\n'
    count, rest = rest.split(b'\n', 1)
    calls = {}
    for line in rest.splitlines():
        if line.startswith(b'of '):
            of = calls.setdefault(line[3:], [])
        else:
            of.append(line)
    assert int(count) == sum(map(len, calls.values()))

    def taken(output):
        """How many entries of a legal history the output has after its documents, and whether it has no more."""
        front = documents + b'history\n'
        if not output.startswith(front):
            return None
        seen = {document: 0 for document in calls}
        lines = output[len(front):].splitlines()
        done = lines[-1:] == [b'done']
        for turn, line in enumerate(lines[:-1] if done else lines):
            said = line.split(b' ', 2)
            place = seen.get(said[1]) if len(said) == 3 else None
            if place is None or said[0] != b'%d' % turn or calls[said[1]][place:place + 1] != [said[2]]:
                return None
            seen[said[1]] = place + 1
        return sum(seen.values()), done

    def is_text(output):
        return taken(output) == (int(count), True) and output.endswith(b'done\n')

    def is_front(output):
        if (documents + b'history\n').startswith(output):
            return True
        found = taken(output)
        return found is not None and output.endswith(b'\n') and (not found[1] or found[0] == int(count))

    return is_text, is_front


def judge(name, ran, is_text, is_front, number=0):
    """What a run came to: its status, and 'part' where the output has a part of the text."""
    status, output, complaints, asked, refused = ran
    if status == 0 and is_text(output) and complaints == b'':
        return '0'
    if status == 5 and is_front(output) and complaints == COMPLAINT:
        return '5 part' if output else '5'
    if status == 1 and output == b'' and complaints == USAGE and number <= MOST_WORDS:
        return '1'
    problems.append(f'{name}: status {status}, {len(output)} bytes of output, complaints {complaints[:200]!r}')
    return 'else'


def tried(name, words, text, numbers, later, is_text, is_front):
    """Plays with each of these numbers refused, and prints what came."""
    came, unseen = {}, 0
    with ThreadPoolExecutor(jobs) as pool:
        for number, ran in zip(numbers, pool.map(lambda n: run(words, text, n, later), numbers)):
            kind = judge(f'{name}, number {number}', ran, is_text, is_front, number)
            came[kind] = came.get(kind, 0) + 1
            unseen += ran[4] == 0
    lacks = f'; in {unseen} of them no request had that number' if unseen else ''
    print(f"{name}: {len(numbers)} runs: status 0 with its text {came.get('0', 0)}, status 5 with no output "
          f"{came.get('5', 0)}, with a part of the text {came.get('5 part', 0)}, status 1 without words "
          f"{came.get('1', 0)}, else {came.get('else', 0)}{lacks}")
    sys.stdout.flush()


def document():
    """One document, each number refused in turn."""
    text, stored = worked(b'# What a preflight learns holds for five seconds')
    is_text, is_front = is_plain(stored)
    status, output, complaints, asked, _ = run(['play'], text, 0, 0)
    judge('one document, nothing refused', (status, output, complaints, asked, 0), is_text, is_front)
    print(f'one document: {asked} requests for memory')
    for later, words in ((0, 'one document, a number refused'), (1, 'one document, a number and all later ones')):
        tried(words, ['play'], text, range(1, asked + 1), later, is_text, is_front)


def threads():
    """Two documents on threads, every 50th number, and every other one too."""
    text, stored = worked(b'# Two documents with keys of their own')
    is_text, is_front = is_shared(stored)
    most = 0
    for _ in range(20):
        status, output, complaints, asked, _ = run(['play'], text, 0, 0)
        judge('two documents, nothing refused', (status, output, complaints, asked, 0), is_text, is_front)
        most = max(most, asked)
    print(f'two documents: at most {most} requests for memory in 20 runs')
    for later, words in ((0, 'two documents, every 50th number'), (1, 'two documents, every 50th and all later ones')):
        tried(words, ['play'], text, range(50, most + 1, 50), later, is_text, is_front)
    tried('two documents, each number', ['play'], text, range(1, most + 1), 0, is_text, is_front)


def generated():
    """`gen 64` with number 20,000 refused, which must miss it, and with other numbers."""
    status, output, complaints, asked, _ = run(['gen', '64'], b'', 0, 0)
    is_text, is_front = is_plain(output)
    expected = (b'gen 64\ndocuments 64\nfetches 12800\nrequests 15360\ncalls 28160\nresponses 12800\nerrors 0\n')
    if (status, output, complaints) != (0, expected, b''):
        problems.append(f'gen 64: status {status}, output {output[:200]!r}')
    print(f'gen 64: {asked} requests for memory')
    for later in (0, 1):
        ran = run(['gen', '64'], b'', 20000, later)
        print(f"gen 64, number 20,000{' and all later ones' if later else ''} refused: status {ran[0]}")
        if ran[0] != 5 or ran[2] != COMPLAINT or not is_front(ran[1]):
            problems.append(f'gen 64, number 20,000: status {ran[0]}')
    tried('gen 64, every 5,000th number', ['gen', '64'], b'', range(5000, asked + 1, 5000), 0, is_text, is_front)


def calls():
    """Two threads with 500 calls each on one book, every 50th number. A call that is refused is left out, and the rest
    made."""
    with open(os.path.join(crates, 'rows_books', 'stdout'), 'rb') as file:
        stored = file.read()
    stored = stored[stored.index(b'# one book\n'):]
    status, output, complaints, asked, _ = run([], b'', 0, 0, threads_program)
    if (status, output) != (0, stored):
        problems.append(f'two threads, nothing refused: status {status}')
    print(f'two threads: {asked} requests for memory')
    for later, words in ((0, 'two threads, every 50th number'), (1, 'two threads, every 50th and all later ones')):
        came = {}
        numbers = range(50, asked + 1, 50)
        with ThreadPoolExecutor(jobs) as pool:
            for number, ran in zip(numbers, pool.map(lambda n: run([], b'', n, later, threads_program), numbers)):
                found = re.search(rb'(?m)^(\d+) entries$', ran[1][ran[1].find(b'# two threads'):])
                entries = int(found[1]) if found else None
                told = re.sub(rb'(?m)(?<=^# two threads\n)\d+ entries$', b'1000 entries', ran[1])
                if ran[0] == 0 and told == stored and entries <= 1000:
                    kind = 'all answered' if entries == 1000 else 'some calls refused, the rest a legal history'
                elif ran[0] == 1 and stored.startswith(told):
                    kind = 'refused outside of the calls'
                else:
                    kind = 'else'
                    problems.append(f'{words}, number {number}: status {ran[0]}, output {ran[1][-200:]!r}')
                came[kind] = came.get(kind, 0) + 1
        shown = ', '.join(f'{kind} {count}' for kind, count in sorted(came.items()))
        print(f'{words}: {len(numbers)} runs: {shown}')
        sys.stdout.flush()


document()
threads()
calls()
generated()
for problem in problems[:20]:
    print(f'PROBLEM: {problem}')
print(f'{len(problems)} problems')
sys.exit(1 if problems else 0)
