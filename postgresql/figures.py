"""What the program that follows tells of itself, at a port of 127.0.0.1: by `/state` as JSON, and by `/metrics` as Prometheus reads it."""
import http.server
import json
import threading
from collections.abc import Callable
from typing import NamedTuple


class Figures(NamedTuple):
    open: bool  # clients may come in
    away: bool  # PostgreSQL is
    behind_bytes: int  # of its log, which the gateway has not on its disk
    behind_seconds: float  # since it had all
    steps: int
    beginnings: int
    left_out: dict[str, str]  # relations, roles and users, each with the reason


def metrics(it: Figures) -> str:
    def line(name: str, value: float, kind: str = "gauge") -> str:
        return f"# TYPE viewd_postgresql_{name} {kind}\nviewd_postgresql_{name} {value:.15g}\n"

    def label(text: str) -> str:
        return text.replace("\\", "\\\\").replace('"', '\\"').replace("\n", "\\n")
    left = [f'viewd_postgresql_left_out{{name="{label(name)}",why="{label(why)}"}} 1\n' for name, why in it.left_out.items()]
    return (line("open", it.open) + line("away", it.away) + line("behind_bytes", it.behind_bytes) + line("behind_seconds", it.behind_seconds)
            + line("steps_total", it.steps, "counter") + line("beginnings_total", it.beginnings, "counter")
            + "# TYPE viewd_postgresql_left_out gauge\n" + "".join(left))


def serve(port: int, figures: Callable[[], Figures]) -> None:
    """Answers from a thread of its own, which ends with the program. Raises OSError."""
    class Handler(http.server.BaseHTTPRequestHandler):
        def do_GET(self) -> None:
            found = figures()
            told = {"/state": ("application/json", json.dumps(found._asdict())), "/metrics": ("text/plain; version=0.0.4", metrics(found))}.get(self.path)
            if told is None:
                self.send_error(404)
                return
            body = told[1].encode()
            self.send_response(200)
            self.send_header("Content-Type", told[0])
            self.send_header("Content-Length", str(len(body)))
            self.end_headers()
            self.wfile.write(body)

        def log_message(self, format: str, *args: object) -> None:
            """Nothing is said of who asks."""

    threading.Thread(target=http.server.ThreadingHTTPServer(("127.0.0.1", port), Handler).serve_forever, daemon=True).start()
