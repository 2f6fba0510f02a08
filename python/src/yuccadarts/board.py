"""The server of an information desk: on this machine alone, and of one page."""
import contextlib
from http import HTTPStatus
from http.server import BaseHTTPRequestHandler, ThreadingHTTPServer
from urllib.parse import parse_qs, urlsplit

from .desk import FIELDS, POLICY, Desk

HOST = "127.0.0.1"


class Board(ThreadingHTTPServer):
    """Serves the page of a desk, with a thread for each request; on port 0 on any that is free."""

    def __init__(self, desk: Desk, port: int):
        super().__init__((HOST, port), Handler)
        self.desk = desk

    @property
    def url(self) -> str:
        return f"http://{HOST}:{self.server_port}/"


class Handler(BaseHTTPRequestHandler):
    server: Board

    def do_GET(self) -> None:
        try:
            asked = urlsplit(self.path)
            fields = parse_qs(asked.query)
        except ValueError:
            self.send_error(HTTPStatus.BAD_REQUEST)
            return
        if asked.path != "/":
            self.send_error(HTTPStatus.NOT_FOUND)
            return
        first = {name: fields[name][0] for name in FIELDS if name in fields}
        status, text = self.server.desk.page(first)
        data = text.encode()
        self.send_response(status)
        self.send_header("Content-Type", "text/html; charset=utf-8")
        self.send_header("Content-Length", str(len(data)))
        self.send_header("Content-Security-Policy", POLICY)
        # whoever asked may have gone away
        with contextlib.suppress(ConnectionError):
            self.end_headers()
            self.wfile.write(data)

    def log_message(self, *words: object) -> None:
        """Requests aren't logged."""
