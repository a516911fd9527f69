#!/usr/bin/env bash
# What a served request costs. The instructions of a connection more, from 100 to 200 over the loopback, with a table of
# one row, with one of 256 rows of 4,096 bytes, which names fill, and with one that methods fill; each request has the
# origin of the last row and the method that it lists last. Then the processor time of 1,000 connections one after the
# other, with the second table, the median of five runs. Ends with 1 where one of the first two is above 25,000
# instructions, or a connection above 0.15 ms. CORSSERVE is the path of the program, where it is not to be built.
set -eu -o pipefail
source "$(dirname "${BASH_SOURCE[0]}")/common.bash"
build_corsserve

cat >"$work/client.py" <<'END_OF_CLIENT'
import random, socket, sys, time

def table(rows, kind):
    """Rows of 4,096 bytes."""
    for number in range(rows):
        start = "http://h%03d.test " % number
        if kind == "names":
            line = start + "GET %s other"
            fill = 4096 - len(line) + 2
            line %= "n" * fill
        else:
            fill = 4096 - len(start + "GET () other")
            line = start + "A" * (fill % 2) + "A," * (fill // 2) + "GET () other"
        print(line)

def port():
    """A port at which nobody listens, none of those that the system gives to who connects."""
    while True:
        number = random.randrange(10000, 30000)
        with socket.socket() as tried:
            try:
                tried.bind(("127.0.0.1", number))
                return number
            except OSError:
                pass

def connected(number):
    for _ in range(2000):
        try:
            return socket.create_connection(("127.0.0.1", number))
        except ConnectionRefusedError:
            time.sleep(0.01)
    sys.exit("bench/server.sh: nobody listens")

def ask(number, count, origin):
    """Asks so often, each time when the answer before was read to its end."""
    request = ("GET / HTTP/1.1\r\nHost: api.test\r\nOrigin: %s\r\n\r\n" % origin).encode()
    for _ in range(count):
        with connected(number) as peer:
            peer.sendall(request)
            answer = b""
            while piece := peer.recv(4096):
                answer += piece
        if not answer.startswith(b"HTTP/1.1 200 "):
            sys.exit("bench/server.sh: another answer: %r" % answer)

if sys.argv[1] == "table":
    table(int(sys.argv[2]), sys.argv[3])
elif sys.argv[1] == "port":
    print(port())
else:
    ask(int(sys.argv[1]), int(sys.argv[2]), sys.argv[3])
END_OF_CLIENT

python3 "$work/client.py" table 256 names >"$work/many"
python3 "$work/client.py" table 256 methods >"$work/methods"
tail -n 1 "$work/many" >"$work/one"
last=http://h255.test

# Runs a command with an address and a number of connections as its last words and a table as its input, and asks it so
# often. What the command prints is in `said`.
served() {
    local table=$1 count=$2 port server
    shift 2
    port=$(python3 "$work/client.py" port)
    "$@" "127.0.0.1:$port" "$count" <"$table" >"$work/said" &
    server=$!
    python3 "$work/client.py" "$port" "$count" "$last" && wait "$server"
}

# The instructions of a connection more.
request_more() {
    local few many
    served "$1" 100 counted "$program" || exit 1
    few=$(cat "$work/said")
    served "$1" 200 counted "$program" || exit 1
    many=$(cat "$work/said")
    echo $(((many - few) / 100))
}

# The processor time of a command in milliseconds.
timed() {
    { TIMEFORMAT='%U %S'; time "$@" >/dev/null; } 2>&1 | awk '{ printf "%d\n", ($1 + $2) * 1000 }'
}

over=0
for table in one many; do
    cost=$(request_more "$work/$table")
    printf 'a request more, rows of 4,096 bytes in the table: %d, instructions: %d\n' "$(wc -l <"$work/$table")" "$cost"
    [ "$cost" -le 25000 ] || over=$((over + 1))
done
printf 'the same with 256 rows of 2,000 methods, of which the last is asked with: %d\n' \
    "$(request_more "$work/methods")"
times=$(for _ in 1 2 3 4 5; do
    served "$work/many" 1000 timed "$program" || exit 1
    cat "$work/said"
done | sort -n | sed -n 3p)
printf '1,000 connections one after the other: %d ms of processor time\n' "$times"
[ "$times" -le 150 ] || over=$((over + 1))
printf '%d over its bar\n' "$over"
[ "$over" = 0 ]
