#!/usr/bin/env bash
# What a fetch over the network costs: 1,000 fetches of 1,024 bytes over the loopback, a connection each, by `fetchplay
# net`, and the same requests by one call of curl without keep-alive. It prints the processor time of each, the median
# of five runs. The server is python3's, on a processor of its own where there are several.
set -eu
source "$(dirname "${BASH_SOURCE[0]}")/common.bash"
build_fetchplay

cat >"$work/server.py" <<'END'
import http.server, sys

class Page(http.server.BaseHTTPRequestHandler):
    protocol_version = "HTTP/1.1"

    def do_GET(self):
        self.send_response_only(200)
        self.send_header("Content-Length", "1024")
        self.send_header("Connection", "close")
        self.end_headers()
        self.wfile.write(b"a" * 1024)

    def log_message(self, format, *words):
        pass

server = http.server.ThreadingHTTPServer(("127.0.0.1", 0), Page)
print(server.server_address[1], flush=True)
server.serve_forever()
END
python3 "$work/server.py" >"$work/port" &
server=$!
trap 'kill $server; rm -rf "$work"' EXIT
while [ ! -s "$work/port" ]; do sleep 0.1; done
address=127.0.0.1:$(cat "$work/port")

printf '{"format":1,"routes":[["http://a.test","%s"]],"documents":[{"url":"http://a.test/","script":[
    {"repeat":1000,"do":[{"fetch":{"url":"/","mode":"same-origin","referrer":"none"}}]}]}]}' "$address" \
    >"$work/scenario"

# The processor time of a command, in milliseconds, the median of five runs.
median() {
    for _ in 1 2 3 4 5; do
        { TIMEFORMAT='%U %S'; time "$@" >/dev/null; } 2>&1 | awk '{ printf "%d\n", ($1 + $2) * 1000 }'
    done | sort -n | sed -n 3p
}

fetchplay() { "$program" net <"$work/scenario"; }
by_curl() { curl -s -H 'Connection: close' "http://$address/[1-1000]"; }

whole=$(fetchplay | grep -c 'body whole 1024')
printf '1,000 fetches of 1,024 bytes (%d came whole): %d ms of processor time\n' "$whole" "$(median fetchplay)"
printf 'the same by curl: %d ms\n' "$(median by_curl)"
