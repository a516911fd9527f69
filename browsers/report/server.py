"""All servers of the report: a proxy on 127.0.0.1:8000 that answers for every host by answers.py, over TLS by cert.pem."""
import os
import socketserver
import ssl
from types import SimpleNamespace
from urllib.parse import urlsplit

import answers

TOLD = ("origin", "referer", "cookie", "authorization", "access-control-request-headers")
HERE = os.path.dirname(os.path.abspath(__file__))
TLS = ssl.SSLContext(ssl.PROTOCOL_TLS_SERVER)
TLS.load_cert_chain(os.path.join(HERE, "cert.pem"))


class Proxy(socketserver.StreamRequestHandler):
    def head(self):
        lines = [line.rstrip(b"\r\n").decode("latin-1") for line in iter(self.rfile.readline, b"\r\n") if line]
        pairs = [line.split(":", 1) for line in lines[1:]]
        return lines[0].split(" "), {name.lower(): value.strip() for name, value in pairs}

    def handle(self):
        (method, target, _), headers = self.head()
        scheme = "http"
        if method == "CONNECT":
            self.wfile.write(b"HTTP/1.1 200 OK\r\n\r\n")
            secure = TLS.wrap_socket(self.request, server_side=True)
            self.rfile, self.wfile, scheme = secure.makefile("rb"), secure.makefile("wb", 0), "https"
            (method, target, _), headers = self.head()
        url = target if "://" in target else f"{scheme}://{headers['host']}{target}"
        self.rfile.read(int(headers.get("content-length", 0)))
        if answers.is_asked(url):
            print(method, url, {name: headers[name] for name in TOLD if name in headers}, flush=True)
        self.answer(SimpleNamespace(method=method, url=url, url_parts=urlsplit(url), headers=headers))

    def answer(self, request):
        told = answers.main(request, SimpleNamespace(writer=self.wfile, close_connection=False))
        if told is not None:
            status, lines, body = told
            head = "".join(f"{name}: {value}\r\n" for name, value in [*lines, ("Connection", "close")])
            self.wfile.write(f"HTTP/1.1 {status} Scripted\r\n{head}\r\n{body}".encode("utf-8"))


socketserver.ThreadingTCPServer.allow_reuse_address = True
socketserver.ThreadingTCPServer(("127.0.0.1", 8000), Proxy).serve_forever()
