"""The server of the studio: the page and its questions, to this machine alone, and to whom has the token. It is no tool
itself.

Every request is refused that does not name the very address as its Host, comes from another Origin, or whose path does
not begin with the token. After the token the path is nothing, which is the page, or one of its questions, by name; no
path is looked up in the system."""
from __future__ import annotations

import errno
import hmac
import http.server
import json
import os
import secrets
import urllib.parse
import zlib
from typing import Any

from pxplanes.errors import Trouble
from pxplanes import ends
from pxplanes.page import studio

PAGE = ends.PAGE
LOCAL = "127.0.0.1"
ROOM = 1 << 26
SECONDS = 60
# A file has the same port each time where that is free, so that the browser finds the drafts that it kept there.
FIRST_PORT, PORTS = 20000, 20000
HEADERS = {
    "Content-Security-Policy": "base-uri 'none'; form-action 'none'; frame-ancestors 'none'",
    "X-Content-Type-Options": "nosniff", "Referrer-Policy": "no-referrer", "Cache-Control": "no-store",
    "Cross-Origin-Resource-Policy": "same-origin", "Cross-Origin-Opener-Policy": "same-origin"}
HTML, JSON = "text/html; charset=utf-8", "application/json"


class Handler(http.server.BaseHTTPRequestHandler):
    server: Server
    protocol_version = "HTTP/1.1"
    server_version, sys_version = "pxplanes", ""
    disable_nagle_algorithm = True
    timeout = SECONDS

    def log_message(self, *words: object) -> None:
        """Says nothing: the address has the token."""

    def do_GET(self) -> None:
        path = self.admitted()
        if path is not None:
            self.sent(200, HTML, self.server.page) if path == "" else self.refuse(404, "there is no such page")

    def do_POST(self) -> None:
        path = self.admitted()
        if path is None:
            return
        name, _, words = path.partition("?")
        body = self.body()
        if body is None:
            return
        try:
            answer = self.server.studio.answer(name, dict(urllib.parse.parse_qsl(words)), body)
        except studio.Unknown:
            return self.refuse(404, "there is no such question")
        except OSError as error:
            answer = {"trouble": "%s: %s" % (error.filename, error.strerror)}
        except Exception as error:
            return self.refuse(500, "the studio failed: %s: %s" % (type(error).__name__, error))
        self.sent(200, JSON, json.dumps(answer).encode("ascii"))

    def admitted(self) -> str | None:
        """The path after the token; None where the request is refused. The page itself may be led to from anywhere:
        whoever does so has the token."""
        origin, site = self.headers.get("Origin"), self.headers.get("Sec-Fetch-Site", "none")
        is_led = self.command == "GET" and self.headers.get("Sec-Fetch-Mode") == "navigate"
        if self.headers.get_all("Host") != [self.server.host]:
            self.refuse(403, "this is another host")
            return None
        if not is_led and (origin not in (None, "http://" + self.server.host) or site not in ("none", "same-origin")):
            self.refuse(403, "this comes from another page")
            return None
        token, _, path = self.path.removeprefix("/").partition("/")
        if not hmac.compare_digest(token.encode("latin-1", "replace"), self.server.token.encode()):
            self.refuse(403, "the token is wrong; pxplanes view printed the address")
            return None
        return path

    def body(self) -> bytes | None:
        """What was sent; None where it is refused, or ends early."""
        length = self.headers.get("Content-Length", "")
        if not (length.isascii() and length.isdigit()) or "Transfer-Encoding" in self.headers:
            self.refuse(411, "a length is expected")
            return None
        if int(length) > ROOM:
            self.refuse(413, "this is too long")
            return None
        content = self.rfile.read(int(length))
        if len(content) != int(length):
            self.refuse(400, "this ends early")
            return None
        return content

    def refuse(self, status: int, why: str) -> None:
        self.close_connection = True
        self.sent(status, "text/plain; charset=utf-8", why.encode() + b"\n")

    def sent(self, status: int, kind: str, content: bytes) -> None:
        self.send_response(status)
        self.send_header("Content-Type", kind)
        self.send_header("Content-Length", str(len(content)))
        if self.close_connection:
            self.send_header("Connection", "close")
        for name, value in HEADERS.items():
            self.send_header(name, value)
        self.end_headers()
        self.wfile.write(content)


class Server(http.server.ThreadingHTTPServer):
    """A server of one studio at a port of this machine, or, where none is said, at one that is free."""

    daemon_threads, block_on_close = True, False

    def __init__(self, port: int | None, own: studio.Studio) -> None:
        if not os.path.isfile(PAGE):
            raise Trouble("there is no page at %s; `tools/package --web --page` makes it" % PAGE)
        self.studio, self.page, self.token = own, ends.content(PAGE), secrets.token_urlsafe(24)
        self.opened(port)
        self.host = "%s:%d" % (LOCAL, self.server_address[1])
        self.address = "http://%s/%s/" % (self.host, self.token)

    def opened(self, port: int | None) -> None:
        own = FIRST_PORT + zlib.crc32(os.path.abspath(self.studio.path or "").encode()) % PORTS
        for each in ([own, 0] if port is None else [port]):
            try:
                return super().__init__((LOCAL, each), Handler)
            except OSError as error:
                if error.errno != errno.EADDRINUSE:
                    raise
        raise Trouble("port %s is taken" % port)

    def handle_error(self, request: Any, client_address: Any) -> None:
        """A connection that breaks off is none of the server's troubles."""
