# What bench/hostile.sh runs: inputs that are made to cost more than they are long, at three sizes each.
import itertools
import json
import os
import re
import resource
import socket
import subprocess
import sys
import threading
import time
import typing

program, launcher, work = sys.argv[1:4]
words = sys.argv[4:]
wanted = [word for word in words if not word.startswith('--')]
MOST = 4194304
MEGABYTE = 1048576
problems = []


# ---- the inputs: each a text of about so many bytes, or of so many things

def scenario(documents, **more):
    return json.dumps({'format': 2, **more, 'documents': documents}, separators=(',', ':')).encode()


def document(script, headers=(), url='https://a.test/'):
    return {'url': url, 'headers': list(headers), 'script': script}


def server(rules, origin='https://a.test'):
    return {'origin': origin, 'rules': rules}


def answering(body, script, documents=1):
    """Documents with a script, at a server that answers with a body."""
    return scenario([document(script)] * documents, servers=[server([{'status': 200, 'body': body}])])


def templates(size, asked):
    """An answer's body, and placeholders for this body: far more than is filled."""
    body = 'a' * min(size // 2, 262144)
    return answering(body, [{'fetch': {'url': '/'}}, {'fetch': asked('${body}' * ((size - len(body)) // 7))}])


# What a fetch asks for, with placeholders in one part.
def in_url(text):
    return {'url': f'/{text}'}


def in_header(text):
    return {'url': '/', 'headers': [['X-A', text]]}


def in_body(text):
    return {'url': '/', 'method': 'POST', 'body': text}


def filled(asked, documents, times):
    """Documents that put as many bodies of 16,000 bytes as there is room for into one part of a fetch so many times."""
    fetches = [{'fetch': {'url': '/'}}, {'fetch': asked('${body}' * (12582912 // min(documents, 16) // 16000))}]
    return answering('<' * 16000, [{'repeat': times, 'do': fetches}], documents)


def header_lines(count):
    return scenario([document([], [[f'{i:x}', ''] for i in range(count)])])


def directive_names(count):
    return scenario([document([], [['Content-Security-Policy', ';'.join(f'd{i}' for i in range(count))]])])


def short_directives(count):
    letters = 'abcdefghijklmnopqrstuvwxyz0123456789'
    names = itertools.islice(itertools.product(letters, repeat=4), count)
    return scenario([document([], [['Content-Security-Policy', ';'.join(''.join(name) for name in names)]])])


def short_policies(count):
    return scenario([document([], [['Content-Security-Policy', ','.join('a' * count)]])])


def integrity_tokens(count, times=1):
    sources = ' '.join(f"'sha256-a{i}'" for i in range(count))
    tokens = ' '.join(f'sha256-a{i}' for i in range(count))
    load = {'load': {'kind': 'script', 'url': 'https://b.test/', 'crossorigin': 'anonymous', 'integrity': tokens}}
    policy = ['Content-Security-Policy', f'script-src {sources}']
    return scenario([document([{'repeat': times, 'do': [load]}], [policy])],
                    servers=[server([{'status': 200, 'body': 'a'}], 'https://b.test')])


def integrity_hops(kind, count):
    """Twenty loads of 20 redirects with so many integrity tokens; of a script, beside as many hash-sources."""
    sources = ' '.join(f"'sha256-a{i}'" for i in range(count))
    tokens = ' '.join([*(f'sha256-a{i}' for i in range(count)), 'sha256-none'])
    load = {'load': {'kind': kind, 'url': '/', 'crossorigin': 'anonymous', 'integrity': tokens}}
    policy = f'script-src https: {sources}' if kind == 'script' else 'x'
    return scenario([document([{'repeat': 20, 'do': [load]}], [['Content-Security-Policy', policy]])],
                    servers=[server([{'status': 302, 'headers': [['Location', '/']]}])])


def lessons(count, names=','.join(f'x{i:06d}' for i in range(5000))):
    """Documents whose preflights teach as much as these header names each time, until the text is long enough."""
    allowed = [['Access-Control-Allow-Origin', '*'], ['Access-Control-Allow-Methods', 'PUT'],
               ['Access-Control-Allow-Headers', names], ['Access-Control-Max-Age', '0']]
    fetch = {'fetch': {'url': 'https://b.test/', 'method': 'PUT'}}
    return scenario([document([{'repeat': 1000, 'do': [fetch]}]) for _ in range(count)],
                    servers=[server([{'status': 200, 'headers': allowed}], 'https://b.test')])


def short_lessons(count):
    return lessons(count, ','.join('x' * 8000))


def waits(size):
    return scenario([document([{'wait': 1}] * (size // 11))])


def redirected(documents, command, headers=()):
    """Documents that do a command, whose requests are redirected 20 times, until their text is long enough."""
    return scenario([document([{'repeat': 1000, 'do': [command]}], headers)] * documents,
                    servers=[server([{'status': 302, 'headers': [['Location', '/']]}])])


def redirects(documents):
    return redirected(documents, {'load': {'kind': 'image', 'url': '/'}})


def short_headers(documents):
    return redirected(documents, {'fetch': {'url': '/', 'mode': 'same-origin', 'headers': [['a', '']] * 64}})


def violations(documents):
    policies = ['Content-Security-Policy-Report-Only', ','.join(["img-src 'none'"] * 16)]
    return redirected(documents, {'load': {'kind': 'image', 'url': '/'}}, [policies])


def routes(count):
    return scenario([document([])] * 128,
                    routes=[[f'http://r{i}.t', 'a'] for i in range(count)])


def nested_objects(size):
    one = '{"a":' * 126 + '1' + '}' * 126
    return ('[' + ','.join([one] * (size // (len(one) + 1))) + ']').encode()


def refused_members(size):
    return ('{"format":2,"documents":[],"x":[' + ','.join(['{}'] * (size // 3)) + ']}').encode()


def chunk_lines(count):
    chunk = '1;' + 'a' * 4000 + '\r\nb\r\n'
    raw = 'HTTP/1.1 200 OK\r\nTransfer-Encoding: chunked\r\n\r\n' + chunk * count + '0\r\n\r\n'
    return scenario([document([{'fetch': {'url': '/'}}])], servers=[server([{'raw': raw}])])


def short_names(length):
    """All names of so many letters and digits, in order."""
    return (''.join(name) for name in itertools.product('abcdefghijklmnopqrstuvwxyz0123456789', repeat=length))


def asking(url, times, answered, **more):
    """A document that asks another origin so many times, whose answer has these headers and lets all read it."""
    allowed = [['Access-Control-Allow-Origin', '*']] + answered
    return scenario([document([{'repeat': times, 'do': [{'fetch': {'url': url, **more}}]}])],
                    servers=[server([{'status': 200, 'headers': allowed}], 'https://b.test')])


def zeros(size):
    """Ten loads whose answer has a Content-Length of many equal numbers, of which the first has many zeros."""
    value = '0' * (size // 2) + '1' + ',1' * (size // 4)
    return scenario([document([{'repeat': 10, 'do': [{'load': {'kind': 'image', 'url': '/'}}]}])],
                    servers=[server([{'status': 200, 'headers': [['Content-Length', value]]}])])


def long_lessons(size):
    """Five preflights of a URL of so many bytes, each of which teaches as many names."""
    return asking(f"https://b.test/{'a' * size}", 5,
                  [['Access-Control-Allow-Methods', 'PUT'], ['Access-Control-Max-Age', '7200'],
                   ['Access-Control-Allow-Headers', ','.join(itertools.islice(short_names(3), size))]], method='PUT')


def dots(size):
    """300 known hosts of so many dots, and 20 fetches from another one."""
    dots = '.' * size
    hosts = [{'host': f'{dots}b{i}z', 'subdomains': False, 'until': 9} for i in range(300)]
    fetch = {'fetch': {'url': f'http://{dots}a/', 'mode': 'same-origin', 'referrer': 'none'}}
    return scenario([document([{'repeat': 20, 'do': [fetch]}], url='http://d.test/')], hsts=hosts)


def exposed_names(size):
    """Fifty answers with so many bytes of names that are exposed, and a header line for each 512 of them."""
    lines = [[name, ''] for name in itertools.islice(short_names(2), size // 512)]
    return asking('https://b.test/', 50, [['Access-Control-Expose-Headers', ','.join(['zz'] * (size // 3))]] + lines)


def allowed_names(size):
    """Fifty preflights that allow so many bytes of names, and a request's name for each 1,000, the last not allowed."""
    names = [f'x{i:02d}' for i in range(size // 1000)]
    return asking('https://b.test/', 50,
                  [['Access-Control-Allow-Methods', 'PUT'],
                   ['Access-Control-Allow-Headers', ','.join(['zzz'] * (size // 4) + names[:-1])]],
                  method='PUT', headers=[[name, ''] for name in names])


def policy_words(count):
    return scenario([document([], [['Content-Security-Policy', 'img-src' + ' a' * count]])])


def checked_bodies(documents):
    """Documents that load a body of a megabyte four times, each time to compare it with a digest."""
    load = {'load': {'kind': 'script', 'url': '/', 'crossorigin': 'anonymous', 'integrity': 'sha512-a'}}
    return answering('a' * MEGABYTE, [{'repeat': 4, 'do': [load]}], documents)


def unlike_words(count):
    letters = 'abcdefghijklmnopqrstuvwxyz0123456789'
    words = itertools.islice(itertools.product(letters, repeat=4), count)
    value = 'img-src ' + ' '.join(''.join(word) for word in words)
    return scenario([document([], [['Content-Security-Policy', value]])])


class Case(typing.NamedTuple):
    name: str
    make: typing.Callable  # the input of a size: so many bytes, or so many of what the name says
    first: int             # n
    longest: int           # as long as a scenario may be, or as it may be tried
    word: str = 'play'     # of the program


CASES = [
    Case('templates in a URL, refused', lambda size: templates(size, in_url), 25000, 4100000),
    Case('templates in a header value, too many', lambda size: templates(size, in_header), 25000, 4100000),
    Case('templates in a body', lambda size: templates(size, in_body), 25000, 4100000),
    Case('a URL as long as is filled, in each of n documents', lambda count: filled(in_url, count, 1), 1, 128),
    Case('a URL as long as is filled, n times', lambda count: filled(in_url, 1, count), 2, 20),
    Case('a header value as long as is filled, in each of n documents', lambda count: filled(in_header, count, 1), 4,
         128),
    Case('a header value as long as is filled, n times', lambda count: filled(in_header, 1, count), 4, 128),
    Case('header lines of a document', header_lines, 12500, 283000),
    Case('directive names of a policy', directive_names, 20000, 500000),
    Case('directives of four letters', short_directives, 200000, 830000),
    Case('policies of one letter, refused', short_policies, 500000, 2000000),
    Case('integrity tokens against hash sources', integrity_tokens, 8000, 120000),
    Case('integrity tokens, n times', lambda count: integrity_tokens(2000, count), 10, 1000),
    Case('integrity tokens of images of 20 redirects', lambda count: integrity_hops('image', count), 2000, 120000),
    Case('integrity tokens of scripts of 20 redirects', lambda count: integrity_hops('script', count), 1000, 60000),
    Case('documents that learn and show much', lessons, 2, 128),
    Case('documents that learn names of one letter', short_lessons, 2, 32),
    Case('lessons of long URLs', long_lessons, 2000, 8000),
    Case('known hosts of dots', dots, 2000, 8000),
    Case('a Content-Length of zeros', zeros, 16000, 64000),
    Case('names that are exposed', exposed_names, 15000, 60000),
    Case('names that are allowed', allowed_names, 15000, 60000),
    Case('documents with loads of 20 redirects', redirects, 32, 128),
    Case('words of a policy', policy_words, 500000, 2000000),
    Case('words of a policy, no two alike', unlike_words, 200000, 800000),
    Case('headers of one letter', short_headers, 2, 16),
    Case('violations', violations, 2, 16),
    Case('bodies that are compared with a digest', checked_bodies, 32, 128),
    Case('routes of 128 documents', routes, 37500, 150000, 'net'),
    Case('waits, as short as commands can be', waits, 1000000, 4190000),
    Case('nested objects that are refused', nested_objects, 1000000, 4190000),
    Case('a key that is refused, with many values', refused_members, 1000000, 4190000),
    Case('chunk lines of 4,000 bytes', chunk_lines, 250, 1000),
]


# ---- measuring

def run(command, path, limit=None, environment=None):
    """The status, the bytes written, the seconds of processor time and the peak of memory of a run."""
    written, told = os.path.join(work, 'written'), os.path.join(work, 'told')
    with open(path, 'rb') as text, open(written, 'wb') as output:
        status = subprocess.run(['/usr/bin/time', '-q', '-f', '%M %U %S', '-o', told] + command, stdin=text,
                                stdout=output, stderr=subprocess.DEVNULL, preexec_fn=limit, env=environment).returncode
    with open(told) as text:
        memory, user, system = text.read().split()[-3:]
    return status, os.path.getsize(written), float(user) + float(system), int(memory) * 1024


def instructions(word, path):
    """The instructions of a play, by callgrind."""
    with open(path, 'rb') as text:
        ran = subprocess.run(['valgrind', '--tool=callgrind', f"--callgrind-out-file={os.path.join(work, 'counts')}",
                              program, word], stdin=text, stdout=subprocess.DEVNULL, stderr=subprocess.PIPE)
    told = re.search(rb'Collected : (\d+)', ran.stderr)
    return int(told.group(1)) if told else None


def measure(case, size):
    """Plays the input of a size, prints what it took, and tells what is compared with the size before."""
    text = case.make(size)
    path = os.path.join(work, 'scenario')
    with open(path, 'wb') as file:
        file.write(text)
    status, written, seconds, memory = run([program, case.word], path)
    counted = instructions(case.word, path) if seconds < 2 and '--quick' not in words else None
    room = 64 * MEGABYTE + 6 * written + 20 * len(text)
    if memory > room:
        problems.append(f'{case.name}, {size}: {memory // MEGABYTE} MB, where {room // MEGABYTE} are room')
    told = f'{counted:14d} instructions, ' if counted else ''
    print(f'  {size:9d}: {len(text):9d} bytes, status {status}, {written:10d} written, {seconds:6.2f} s, '
          f'{told}{memory // MEGABYTE:5d} MB', end='')
    return counted, seconds, memory


def measured(case):
    print(f'{case.name} ({case.word})')
    before = None
    for size in [case.first, 2 * case.first, 4 * case.first]:
        counted, seconds, memory = measure(case, size)
        if before:
            grown = counted / before[0] if counted and before[0] else seconds / max(before[1], 0.001)
            print(f', {grown:.2f} and {memory / before[2]:.2f} times', end='')
            if grown > 2.3 and (counted or before[1] > 0.5):
                problems.append(f'{case.name}, {size}: {grown:.2f} times the time')
        print(flush=True)
        before = counted, seconds, memory
    if '--long' in words:
        _, seconds, _ = measure(case, case.longest)
        print(flush=True)
        if seconds > 10:
            problems.append(f'{case.name}, {case.longest}: {seconds:.1f} s')


def limited(kilobytes):
    """The limits of bin/fetchplay, which it sets itself too, and one of address space."""
    def limit():
        resource.setrlimit(resource.RLIMIT_STACK, (MEGABYTE, resource.getrlimit(resource.RLIMIT_STACK)[1]))
        resource.setrlimit(resource.RLIMIT_AS, (kilobytes * 1024, kilobytes * 1024))
    return limit


def measured_room():
    """The least of some sizes of address space with which `gen 64` plays."""
    print('`gen 64`, by `ulimit -v`')
    least = None
    for kilobytes in [8000000, 4000000, 2000000, 1000000, 400000, 300000, 200000, 100000]:
        arenas = {**os.environ, 'MALLOC_ARENA_MAX': '4'}
        status = run([launcher, 'gen', '64'], os.devnull, limited(kilobytes), arenas)[0]
        if status != 0:
            break
        least = kilobytes
    print(f'  plays with {least} kilobytes', flush=True)
    if least is None or least > 400000:
        problems.append('`gen 64` does not play with 400000 kilobytes')


def quiet_server(answer, kept):
    """The address of a server that takes a connection, keeps it, sends this and then nothing more."""
    listener = socket.create_server(('127.0.0.1', 0))

    def serve():
        kept.append(listener.accept()[0])
        kept[-1].sendall(answer)
    threading.Thread(target=serve, daemon=True).start()
    return f'127.0.0.1:{listener.getsockname()[1]}'


def measured_silence():
    """How long a play waits for a server that never answers, and for one that stops in the middle of a body."""
    print('a server that never answers, and one that stops in a body (net)')
    begun = b'HTTP/1.1 200 OK\r\nContent-Length: 9\r\nAccess-Control-Allow-Origin: *\r\n\r\nbegun'
    asks = [{'fetch': {'url': 'http://b.test/'}}], [{'fetch': {'url': 'http://c.test/'}}]
    kept = []
    path = os.path.join(work, 'scenario')
    with open(path, 'wb') as file:
        file.write(scenario([document(ask, url='http://a.test/') for ask in asks],
                            routes=[['http://b.test', quiet_server(b'', kept)],
                                    ['http://c.test', quiet_server(begun, kept)]]))
    began = time.time()
    with open(path, 'rb') as text:
        try:
            ran = subprocess.run([program, 'net'], stdin=text, stdout=subprocess.PIPE, stderr=subprocess.DEVNULL,
                                 timeout=90)
        except subprocess.TimeoutExpired:
            print('  waits longer than 90 s', flush=True)
            problems.append('a server that never answers is waited for')
            return
    came = [line.strip() for line in ran.stdout.decode().splitlines() if re.match(r' *(result|body)', line)]
    print(f"  ended after {time.time() - began:.1f} s: {', '.join(came)}", flush=True)
    if came != ['result error 24 LinkFault', 'result cors 200 http://c.test/', 'body fault 5']:
        problems.append(f"a server that is silent: {', '.join(came)}")


for case in CASES:
    if not wanted or any(word in case.name for word in wanted):
        measured(case)
if not wanted or 'gen' in wanted:
    measured_room()
if not wanted or 'net' in wanted:
    measured_silence()

for problem in problems:
    print(f'OVER: {problem}')
print(f'{len(problems)} over')
