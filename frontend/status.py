"""What a keeper tells of itself at a port of 127.0.0.1: `/state` as JSON; and `/leads`, 200 if its gateway leads, so that proxies send there who writes."""
import http.server
import json
import threading
from collections.abc import Callable
from typing import TypedDict


class State(TypedDict):
    leads: bool
    open: bool  # clients may come in
    away: bool  # Redis is
    position: int  # of the last step that it has read or appended
    on_disk: int  # and of the last one that its gateway has there


def serve(port: int, state: Callable[[], State]) -> None:
    """Answers from a thread of its own, which ends with the program. Raises OSError."""
    class Handler(http.server.BaseHTTPRequestHandler):
        def do_GET(self) -> None:
            told = state()
            status = {"/state": 200, "/leads": 200 if told["leads"] else 503}.get(self.path, 404)
            body = json.dumps(told).encode() if self.path == "/state" else b""
            self.send_response(status)
            self.send_header("Content-Type", "application/json")
            self.send_header("Content-Length", str(len(body)))
            self.end_headers()
            self.wfile.write(body)

        def log_message(self, format: str, *args: object) -> None:
            """Nothing is said of who asks."""

    threading.Thread(target=http.server.ThreadingHTTPServer(("127.0.0.1", port), Handler).serve_forever, daemon=True).start()
