#!/usr/bin/env python3
"""Writes the rows of crates/rows_books on a book that are made by a rule, and what a plain list of entries and a plain
list of hosts come to on all of them: its `stdin` and `stdout`, except the rows of the wire before them and the calls
of a book after them, which stay as they are. `bench/rows_books.py` compares what is there with what this script would
write; with `--write` it writes them.

The rows by hand are in ROWS, each with its answer."""
import os
import sys

CRATE = os.path.join(os.path.dirname(os.path.abspath(__file__)), "..", "crates", "rows_books")

# ---- rows by hand: an operation, and its answer

ROWS = """\
# A lesson holds for its age. Header names are matched without regard to case, methods are not.
covers k http://b.test/ other PUT X-A 0 = no
learn k http://b.test/ other 5 PUT x-a 0 = k http://b.test/,PUT,0+5 http://b.test/,x-a,0+5
covers k http://b.test/ other PUT X-A 0 = yes
covers k http://b.test/ other PUT X-A 4 = yes
covers k http://b.test/ other PUT X-A 5 = no
covers k http://b.test/ other put - 4 = no
covers k http://b.test/ other - X-A,x-b 4 = no
covers k http://b.test/ other - - 9 = yes
# Another key, another URL, and a request with credentials are not covered.
covers l http://b.test/ other PUT - 4 = no
covers k http://b.test/x other PUT - 4 = no
covers k http://b.test/ include PUT - 4 = no
# Clearing takes the entries of a key and a URL.
learn k http://b.test/x other 5 PUT - 1 = k http://b.test/,PUT,0+5 http://b.test/,x-a,0+5 http://b.test/x,PUT,1+5
clear l http://b.test/ = l
clear k http://b.test/ = k http://b.test/x,PUT,1+5
covers k http://b.test/ other PUT - 4 = no
clear k http://b.test/x = k
# The wildcard speaks of every method, and of every header name but Authorization.
learn w http://b.test/ other 5 * * 0 = w http://b.test/,*,0+5 http://b.test/,*,0+5
covers w http://b.test/ other PUT x-a 0 = yes
covers w http://b.test/ other - authorization 0 = no
covers w http://b.test/ other - Authorization 0 = no
learn w http://b.test/ other 5 - AUTHORIZATION 1 = w http://b.test/,*,0+5 http://b.test/,*,0+5 http://b.test/,AUTHORIZATION,1+5
covers w http://b.test/ other - Authorization 1 = yes
# What is learnt again is renewed in its place: its age counts from then on. The dead entries of the key go.
learn r http://b.test/ other 5 PUT,DELETE - 0 = r http://b.test/,PUT,0+5 http://b.test/,DELETE,0+5
learn r http://b.test/ other 9 PUT - 4 = r http://b.test/,PUT,4+9 http://b.test/,DELETE,0+5
learn r http://b.test/ other 2 GET - 12 = r http://b.test/,PUT,4+9 http://b.test/,GET,12+2
# A lesson without credentials renews an entry that was made with them, which stays one; one with credentials
# doesn't find one without.
learn c http://b.test/ include 5 PUT - 0 = c http://b.test/,PUT,0+5,include
learn c http://b.test/ other 7 PUT - 1 = c http://b.test/,PUT,1+7,include
covers c http://b.test/ include PUT - 7 = yes
learn d http://b.test/ other 5 PUT - 0 = d http://b.test/,PUT,0+5
learn d http://b.test/ include 5 PUT - 1 = d http://b.test/,PUT,0+5 http://b.test/,PUT,1+5,include
# A lesson of PUT renews the wildcard. A lesson of age 0 adds entries that are dead at once, and an equal name in
# it is added again.
learn a http://b.test/ other 5 * - 0 = a http://b.test/,*,0+5
learn a http://b.test/ other 3 PUT - 1 = a http://b.test/,*,1+3
learn z http://b.test/ other 0 PUT,PUT - 1 = z http://b.test/,PUT,1+0 http://b.test/,PUT,1+0
covers z http://b.test/ other PUT - 1 = no
# A host is known until its term ends, with its subdomains where it says so.
note 10 alone 0 b.test = 1
note 10 subdomains 0 c.test = 2
known 0 b.test a.b.test c.test a.c.test ac.test c.test. test = yes no yes yes no no no
known 9 b.test a.c.test = yes yes
known 10 b.test a.c.test = no no
# A field takes the place of what was known; age 0 and forgetting take the host out.
note 7 subdomains 3 b.test = 2
known 9 b.test a.b.test = yes yes
note 5 alone 4 b.test = 2
known 8 b.test a.b.test = yes no
known 9 b.test = no
note 0 subdomains 4 b.test = 1
known 4 b.test c.test = no yes
forget d.test = 1
forget c.test = 0
known 0 c.test = no
"""

# ---- rows by a rule: operations alone


def last_names():
    """65 header names, learnt by one key in a row, leave the last 64 of them; another key's entry stays."""
    yield "# Of 65 names that a key learns the last 64 stay, and so does another key's entry."
    yield "learn o http://b.test/ other 9 - x0 0"
    names = [f"x{number}" for number in range(65)]
    yield f"learn m http://b.test/ other 9 - {','.join(names)} 0"
    for name in names:
        yield f"covers m http://b.test/ other - {name} 0"
    yield "covers o http://b.test/ other - x0 0"


def most_hosts():
    """The list is full: 4,096 hosts, until 100 each except two until 50. The first of these goes for another one."""
    yield "# Of 4,096 hosts, and one more, the one goes that ends first: of two the first by its bytes."
    hosts = [f"h{number:04}.test" for number in range(4096)]
    for start in range(0, 4096, 16):
        yield "note 100 alone 0 " + " ".join(hosts[start : start + 16])
    yield "note 50 alone 0 h0003.test h0007.test"
    yield "note 60 alone 0 new.test"
    for start in range(0, 4096, 16):
        yield "known 0 " + " ".join(hosts[start : start + 16])
    yield "known 0 new.test"


def cache_operations():
    """Operation i of 2,000 has key i modulo 3, URL i modulo 8 and time i / 10, and is by i modulo 7 a lesson of
    age 5, a question or a clear."""
    yield "# 2,000 lessons, questions and clears by turns."
    for i in range(2000):
        key, url, time = f"k{i % 3}", f"http://b.test/{i % 8}", i // 10
        if i % 7 < 3:
            yield f"learn {key} {url} other 5 PUT - {time}"
        elif i % 7 < 6:
            yield f"covers {key} {url} other PUT - {time}"
        else:
            yield f"clear {key} {url}"


def host_operations():
    """Operation i of 2,000 has host i modulo 13 and time i / 10. It notes the host, with age 5 times i modulo 4 and
    with subdomains where i modulo 3 is 0, or asks for it (i modulo 5 is 3) or a name under it (4). After each
    200 all hosts and a name under each are asked for, and at the end all are forgotten."""
    yield "# 2,000 fields and questions by turns."
    for i in range(2000):
        host, time = f"h{i % 13}.test", i // 10
        if i % 5 < 3:
            word = "subdomains" if i % 3 == 0 else "alone"
            yield f"note {i % 4 * 5} {word} {time} {host}"
            yield f"known {time} {host} a.{host}"
        else:
            yield f"known {time} {'a.' if i % 5 == 4 else ''}{host}"
        if i % 200 == 199:
            names = " ".join(f"h{n}.test a.h{n}.test" for n in range(13))
            yield f"known {time} {names}"
            yield f"known {time + 5} {names}"
    for n in range(13):
        yield f"forget h{n}.test"


# ---- the plain lists


class Entry:
    def __init__(self, url, include, made, age, kind, allowed):
        self.url, self.include, self.made, self.age = url, include, made, age
        self.kind, self.allowed = kind, allowed

    def shown(self):
        return f"{self.url},{self.allowed},{self.made}+{self.age}" + (",include" if self.include else "")

    def is_alive(self, now):
        return now < self.made + self.age

    def matches(self, url, include, kind, wanted):
        if self.url != url or self.kind != kind or include and not self.include:
            return False
        if kind == "method":
            return self.allowed in (wanted, "*")
        return self.allowed.lower() == wanted.lower() or self.allowed == "*" and wanted.lower() != "authorization"


def listed(word):
    return [] if word == "-" else word.split(",")


class Plain:
    def __init__(self):
        self.cache = {}  # the entries of each key, in the order of their creation
        self.hosts = {}  # each host's subdomains and end

    def entries(self, key):
        return " ".join([key] + [entry.shown() for entry in self.cache.get(key, [])])

    def learn(self, key, url, credentials, age, methods, names, now):
        age, now, include = int(age), int(now), credentials == "include"
        entries = [entry for entry in self.cache.get(key, []) if entry.is_alive(now)]
        wanted = [("method", method) for method in listed(methods)] + [("name", name) for name in listed(names)]
        for kind, item in wanted:
            found = [e for e in entries if e.is_alive(now) and e.matches(url, include, kind, item)]
            for entry in found:
                entry.made, entry.age = now, age
            if not found:
                entries = (entries + [Entry(url, include, now, age, kind, item)])[-64:]
        self.cache[key] = entries
        return self.entries(key)

    def covers(self, key, url, credentials, method, names, now):
        wanted = [("method", item) for item in listed(method)] + [("name", name) for name in listed(names)]
        alive = [entry for entry in self.cache.get(key, []) if entry.is_alive(int(now))]
        include = credentials == "include"
        return "yes" if all(any(e.matches(url, include, *w) for e in alive) for w in wanted) else "no"

    def clear(self, key, url):
        self.cache[key] = [entry for entry in self.cache.get(key, []) if entry.url != url]
        return self.entries(key)

    def note(self, age, subdomains, now, *hosts):
        for host in hosts:
            self.hosts.pop(host, None)
            if int(age) > 0:
                if len(self.hosts) == 4096:
                    first = min(self.hosts, key=lambda known: (self.hosts[known][1], known.encode()))
                    del self.hosts[first]
                self.hosts[host] = (subdomains == "subdomains", int(now) + int(age))
        return str(len(self.hosts))

    def forget(self, host):
        self.hosts.pop(host, None)
        return str(len(self.hosts))

    def known(self, now, *names):
        def is_known(name):
            return any(
                int(now) < until and (host == name or subdomains and name.endswith("." + host))
                for host, (subdomains, until) in self.candidates(name)
            )

        return " ".join("yes" if is_known(name) else "no" for name in names)

    def candidates(self, name):
        parts = [name] + [name[i + 1 :] for i in range(len(name)) if name[i] == "."]
        return [(host, self.hosts[host]) for host in parts if host in self.hosts]


def played():
    """The lines of `stdin`, and those of `stdout`."""
    lines, answers = [], []
    plain = Plain()
    rows = [row.partition(" = ") for row in ROWS.splitlines()]
    for row in rows:
        lines.append(row[0])
        answers.append(row[0] if row[0].startswith("#") else row[2])
    for operation, _, answer in rows:
        if not operation.startswith("#"):
            word, *words = operation.split()
            found = getattr(plain, word)(*words)
            assert found == answer, (operation, found, answer)
    for rule in (last_names, cache_operations, host_operations, most_hosts):
        for line in rule():
            word, *words = line.split()
            lines.append(line)
            answers.append(line if word == "#" else getattr(plain, word)(*words))
    return lines, answers


def stored(name):
    """The lines of a stored file."""
    with open(os.path.join(CRATE, name)) as file:
        return file.read().splitlines()


def wire(name):
    """The lines of a stored file on the wire, which stand before those that this script writes."""
    lines = stored(name)
    return lines[: lines.index(ROWS.splitlines()[0])]


def calls():
    """The lines of the stored `stdout` on the calls of a book, which the program makes after its input."""
    lines = stored("stdout")
    return lines[lines.index("# one book"):]


def main():
    lines, answers = played()
    lines = wire("stdin") + lines
    answers = wire("stdout") + answers + calls()
    same = True
    for name, rows in (("stdin", lines), ("stdout", answers)):
        if sys.argv[1:] == ["--write"]:
            with open(os.path.join(CRATE, name), "w") as file:
                file.write("".join(row + "\n" for row in rows))
        else:
            same = stored(name) == rows and same
    print("rows_books: the same" if same else "rows_books: DIFFERENT")
    return 0 if same else 1


sys.exit(main())
