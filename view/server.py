"""Serves the page, and what it asks for, on 127.0.0.1 alone."""

import hmac
import json
import pathlib
import secrets
import socketserver
import threading
import time
from http.server import BaseHTTPRequestHandler, ThreadingHTTPServer
from urllib.parse import parse_qs

ADDRESS = "127.0.0.1"
HERE = pathlib.Path(__file__).resolve().parent
# The most octets of what a request brings.
LONGEST_BODY = 1000
HEADERS = {
    "Cache-Control": "no-store",
    "Cross-Origin-Opener-Policy": "same-origin",
    "Cross-Origin-Resource-Policy": "same-origin",
    "Referrer-Policy": "no-referrer",
    "X-Content-Type-Options": "nosniff",
    "X-Frame-Options": "DENY",
}
POLICY = (
    "default-src 'none'; script-src 'nonce-{0}'; style-src 'nonce-{0}'; img-src data:; connect-src 'self'; "
    "base-uri 'none'; form-action 'none'; frame-ancestors 'none'"
)


class Refused(Exception):
    """A request that is not served: its status and why."""

    def __init__(self, status, why):
        super().__init__(why)
        self.status, self.why = status, why


class Server(ThreadingHTTPServer):
    """A server of one page, which needs a token."""

    daemon_threads = True
    block_on_close = False

    def __init__(self, port):
        """Listens at this port, or at any free one if it is 0. Raises OSError if the port is in use."""
        self.token = secrets.token_urlsafe(24)
        self.watch = self.wake = None
        # The moment at which a page last asked for the state, or None; and whether one has got how the run ended.
        self.asked, self.farewell = None, threading.Event()
        super().__init__((ADDRESS, port), Handler)

    def server_bind(self):
        """Binds the socket, without a search for the name of this machine."""
        socketserver.TCPServer.server_bind(self)
        self.server_name, self.server_port = self.server_address[:2]

    def handle_error(self, request, client_address):
        """Ignores a connection that breaks."""

    def hosts(self):
        """Returns the hosts by which a browser of this machine, or at the end of a tunnel, names this server."""
        return [f"{name}:{self.server_port}" for name in (ADDRESS, "localhost")]

    def address(self):
        """Returns the address of the page."""
        return f"http://{ADDRESS}:{self.server_port}/?token={self.token}"

    def is_watched(self):
        """Returns whether a page asked for the state within the last three seconds."""
        return self.asked is not None and time.monotonic() - self.asked < 3


class Handler(BaseHTTPRequestHandler):
    """Serves a connection."""

    protocol_version = "HTTP/1.1"
    server_version, sys_version = "pbnet-view", ""
    timeout = 30

    def do_GET(self):
        """Serves the page or what it reads."""
        self.serve({"/": self.page, "/picture": self.picture, "/state": self.state, "/counts": self.counts})

    def do_POST(self):
        """Does what the page asks for."""
        self.serve({"/link": self.link, "/stop": self.stop})

    def serve(self, actions):
        """Does the action of the path, after checks of its host, origin and token."""
        path, _, query = self.path.partition("?")
        try:
            self.check_source()
            if path not in actions:
                raise Refused(404, "there is no such page")
            values = parse_qs(query)
            given = values.get("token", [""])[0] if path == "/" else self.headers.get("X-Token", "")
            if not hmac.compare_digest(given.encode(), self.server.token.encode()):
                raise Refused(403, "the token is wrong: use the address that pbnet-view printed")
            actions[path](values)
        except Refused as error:
            self.refuse(error.status, error.why)
        except OSError:
            self.refuse(503, "the run does not answer")

    def check_source(self):
        """Raises Refused if the request names another host, or comes from another page."""
        hosts = self.headers.get_all("Host", [])
        if len(hosts) != 1 or hosts[0] not in self.server.hosts():
            raise Refused(403, "the host is wrong: use the address that pbnet-view printed")
        origins = self.headers.get_all("Origin", [])
        if origins != [f"http://{hosts[0]}"] and (origins or self.command != "GET"):
            raise Refused(403, "the origin is wrong")

    def read_body(self):
        """Returns the object that the request brings."""
        length = self.headers.get("Content-Length", "")
        if not (length.isascii() and length.isdecimal()) or int(length) > LONGEST_BODY:
            raise Refused(400, "the length is wrong")
        try:
            body = json.loads(self.rfile.read(int(length)))
        except ValueError as error:
            raise Refused(400, "the request is no JSON") from error
        if not isinstance(body, dict):
            raise Refused(400, "the request is no object")
        return body

    def page(self, _query):
        """Sends the page, with its style and its script."""
        nonce = secrets.token_urlsafe(18)
        text = (HERE / "page.html").read_text(encoding="utf-8")
        for mark, file in (("STYLE", "page.css"), ("SCRIPT", "page.js")):
            text = text.replace(f"<!--{mark}-->", (HERE / file).read_text(encoding="utf-8"))
        self.send(200, "text/html; charset=utf-8", text.replace("NONCE", nonce), POLICY.format(nonce))

    def picture(self, _query):
        """Sends what the picture shows."""
        self.send_json(200, self.server.watch.picture)

    def state(self, query):
        """Sends the state, with the changes after the number `after`."""
        after = query.get("after", ["0"])[0]
        self.server.asked = time.monotonic()
        is_number = after.isascii() and after.isdecimal() and len(after) < 16
        state = self.server.watch.state(int(after) if is_number else 0)
        self.send_json(200, state)
        if state["result"]:
            self.server.farewell.set()

    def counts(self, _query):
        """Sends what the run answers to `counts`."""
        self.send_json(200, {"lines": self.server.watch.ask("counts")[0]})

    def link(self, _query):
        """Enables or disables a link."""
        body = self.read_body()
        if not isinstance(body.get("link"), str) or not isinstance(body.get("up"), bool):
            raise Refused(400, "the request needs a link and up")
        try:
            verdicts = self.server.watch.set_link(body["link"], body["up"])
        except KeyError as error:
            raise Refused(404, "there is no such link") from error
        self.server.wake.set()
        self.send_json(200, {"verdicts": verdicts})

    def stop(self, _query):
        """Stops the run."""
        self.read_body()
        self.server.watch.stop()
        self.server.wake.set()
        self.send_json(200, {"verdicts": ["ok"]})

    def refuse(self, status, why):
        """Sends an error, and closes the connection: what the request brings may not have been read."""
        self.close_connection = True
        self.send_json(status, {"error": why})

    def send_json(self, status, value):
        """Sends a document."""
        self.send(status, "application/json", json.dumps(value), "default-src 'none'; frame-ancestors 'none'")

    def send(self, status, kind, text, policy):
        """Sends a response."""
        octets = text.encode()
        self.send_response(status)
        more = {"Connection": "close"} if self.close_connection else {}
        fixed = {"Content-Type": kind, "Content-Length": str(len(octets)), "Content-Security-Policy": policy}
        for name, value in {**fixed, **HEADERS, **more}.items():
            self.send_header(name, value)
        self.end_headers()
        self.wfile.write(octets)

    def send_error(self, code, message=None, explain=None):
        """Refuses a request that is not HTTP, or of another method."""
        self.refuse(code, message or "the request is wrong")

    def log_message(self, *_):
        """Prints nothing."""
