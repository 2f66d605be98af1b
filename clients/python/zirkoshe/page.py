"""A live page that shows what a server holds, for a browser on the same machine.

`Page(port)` serves it on the loopback address alone, at `url`. `show` shows a new
audit, and `end` says that the server has ended. The page has the picture of the last
audit, and a list of the rows that were added, changed and removed, each with the
journal's length when that was seen. It does not show steps or denials, which
`zirkoshe.steps_page` reads from a journal. It loads nothing from elsewhere.
"""

import http.server
import json
import pkgutil
import secrets
import threading
import time
import urllib.parse
from typing import Any, Dict, List, NamedTuple, Optional, Tuple

from .audit import formed
from .changes import KINDS, Change, Row, changes_between, rows_of, shown
from .outputs import Outputs
from .rows import Audit

__all__ = [
    "BEAT",
    "KINDS",
    "MOST_CHANGES",
    "Change",
    "Handler",
    "LivePage",
    "Page",
    "Refused",
    "Row",
    "Server",
    "changes_between",
    "document",
    "rows_of",
    "shown",
]

#: How many changes the page keeps.
MOST_CHANGES = 200
#: How often an open page is sent a sign of life, in seconds.
BEAT = 15.0


class Refused(Exception):
    """A request of a page that is answered with a status alone."""

    def __init__(self, status: int) -> None:
        super().__init__(status)
        self.status = status


class Sources(NamedTuple):
    """The files of a page in the folder `pages`."""

    html: str
    styles: Tuple[str, ...]
    scripts: Tuple[str, ...]


CHANGES = Sources(
    "changes.html",
    ("page.css", "picture.css", "outputs.css"),
    ("changes.js", "outputs.js"),
)


def text_of(name: str) -> str:
    """Returns the text of a file in the folder `pages`."""
    data = pkgutil.get_data(__package__, f"pages/{name}")
    assert data is not None, name
    return data.decode()


def document(sources: Sources, nonce: str, first: Any) -> str:
    """Returns the page as one document, which contains what it shows at first."""
    # a text of the page's data has no `</script>`
    data = json.dumps(first).replace("<", "\\u003c")
    scripts = [f"const first = {data};", *map(text_of, sources.scripts)]
    parts = {
        "STYLE": "\n".join(map(text_of, sources.styles)),
        "NONCE": nonce,
        "SCRIPT": "\n".join(scripts),
    }
    pieces = text_of(sources.html).split("%%")
    return "".join(
        parts[piece] if place % 2 else piece for place, piece in enumerate(pieces)
    )


class Handler(http.server.BaseHTTPRequestHandler):
    """Answers a browser on this machine: the page, and its news as they come in."""

    server: "Server"
    protocol_version = "HTTP/1.1"
    server_version = "drm_page"
    sys_version = ""

    def handle(self) -> None:
        """Answers the requests of a connection until the browser ends it."""
        try:
            super().handle()
        except OSError:  # the browser has closed the page, or reset the connection
            self.close_connection = True

    def do_GET(self) -> None:  # the name that http.server calls
        """Answers a request."""
        try:
            self.answer()
        except Refused as refused:
            self.refuse(refused.status)

    def answer(self) -> None:
        """Answers a request, or raises `Refused`."""
        # a host name of another site that leads here is refused
        if self.headers.get("Host") not in (
            f"127.0.0.1:{self.server.server_port}",
            f"localhost:{self.server.server_port}",
        ):
            raise Refused(403)
        path, _, query = self.path.partition("?")
        if path == "/":
            self.send_page()
            return
        # only the page itself may ask for more; another site may lead to the page
        if self.headers.get("Sec-Fetch-Site", "same-origin") != "same-origin":
            raise Refused(403)
        fields = dict(urllib.parse.parse_qsl(query))
        if path == "/live":
            self.send_news()
        elif path == "/favicon.ico":  # what a browser asks for by itself
            self.refuse(204)
        elif path == "/output":
            self.send("image/png", self.server.page.output(fields), {})
        else:
            answer = self.server.page.answer(path[1:], fields)
            self.send("application/json", json.dumps(answer).encode(), {})

    def refuse(self, status: int) -> None:
        """Sends a status alone."""
        self.send_response(status)
        self.send_header("Content-Length", "0")
        self.end_headers()

    def send(self, kind: str, body: bytes, headers: Dict[str, str]) -> None:
        """Sends an answer that no cache keeps."""
        self.send_response(200)
        self.send_header("Content-Type", kind)
        self.send_header("Content-Length", str(len(body)))
        self.send_header("Cache-Control", "no-store")
        self.send_header("X-Content-Type-Options", "nosniff")
        for name, value in headers.items():
            self.send_header(name, value)
        self.end_headers()
        self.wfile.write(body)

    def send_page(self) -> None:
        """Sends the page with what it shows at first."""
        nonce = secrets.token_urlsafe(16)
        body = self.server.page.document(nonce).encode()
        policy = (
            "default-src 'none'; connect-src 'self'; img-src 'self'; "
            "style-src 'unsafe-inline'; "
            f"script-src 'nonce-{nonce}'; base-uri 'none'; form-action 'none'; "
            "frame-ancestors 'none'"
        )
        headers = {"Content-Security-Policy": policy, "Referrer-Policy": "no-referrer"}
        self.send("text/html; charset=utf-8", body, headers)

    def send_news(self) -> None:
        """Sends what the page shows at each change, until the server has ended."""
        self.send_response(200)
        self.send_header("Content-Type", "text/event-stream")
        self.send_header("Cache-Control", "no-store")
        self.send_header("Connection", "close")
        self.end_headers()
        self.close_connection = True
        known, has_ended = 0, False
        while not has_ended:
            known, news = self.server.page.next_after(known)
            has_ended = news["has_ended"]
            data = f"data: {json.dumps(news)}" if news["is_new"] else ": still live"
            self.wfile.write(f"{data}\n\n".encode())
            self.wfile.flush()

    def log_message(self, format: str, *args: Any) -> None:
        """Logs nothing."""


class Server(http.server.ThreadingHTTPServer):
    """The server of a page."""

    daemon_threads = True
    page: "LivePage"


class LivePage:
    """A page that receives news. Port 0 is any free port.

    A subclass defines `document`, `news` and, if the page requests more, `answer`. It
    calls `serve` when it is ready.
    """

    def __init__(self, port: int, outputs: Optional[Outputs] = None) -> None:
        self._outputs = outputs
        self._turn = threading.Condition()
        self._number = 0
        self._has_ended = False
        self._server = Server(("127.0.0.1", port), Handler)
        self._server.page = self
        self.url = f"http://127.0.0.1:{self._server.server_port}/"

    def serve(self) -> None:
        """Starts to answer browsers."""
        threading.Thread(target=self._server.serve_forever, daemon=True).start()

    def document(self, nonce: str) -> str:
        """Returns the text of the page, whose scripts have this nonce."""
        raise NotImplementedError

    def is_ready(self) -> bool:
        """Returns whether there is something to show."""
        return True

    def news(self) -> Dict[str, Any]:
        """Returns the news of a page that is ready."""
        raise NotImplementedError

    def answer(self, path: str, fields: Dict[str, str]) -> Any:
        """Returns the answer to a request of the page, or raises `Refused`."""
        if path != "outputs" or self._outputs is None:
            raise Refused(404)
        return self._outputs.listed()

    def output(self, fields: Dict[str, str]) -> bytes:
        """Returns the picture of an output, or raises `Refused`."""
        word = fields.get("crtc", "")
        is_number = word.isascii() and word.isdigit() and len(word) <= 12
        png = self._outputs.png(int(word)) if self._outputs and is_number else b""
        if not png:
            raise Refused(404)
        return png

    def notice(self) -> None:
        """Sends the news to open pages."""
        with self._turn:
            self._number += 1
            self._turn.notify_all()

    def end(self) -> None:
        """Says that the server has ended, and leaves open pages a moment to show it."""
        with self._turn:
            self._has_ended = True
            self._number += 1
            self._turn.notify_all()
        time.sleep(0.2)
        self._server.shutdown()
        self._server.server_close()

    def next_after(self, known: int) -> Tuple[int, Dict[str, Any]]:
        """Waits for news after this number, and returns their number and the news.

        After a while without news it returns what says that there are none.
        """
        with self._turn:
            is_new = self._turn.wait_for(
                lambda: self._number > known and self.is_ready() or self._has_ended,
                BEAT,
            )
            return (self._number if is_new else known), self._sent(is_new)

    def now(self) -> Dict[str, Any]:
        """Returns what the page shows now."""
        with self._turn:
            return self._sent(True)

    def _sent(self, is_new: bool) -> Dict[str, Any]:
        is_new = is_new and self.is_ready()
        sent = {
            "is_new": is_new,
            "has_ended": self._has_ended,
            "has_outputs": self._outputs is not None,
        }
        return {**sent, **(self.news() if is_new else {})}


class Page(LivePage):
    """The page of audits and of what changed between them. Port 0 is any free port.

    Its picture is without the client that reads the audits by default.
    """

    def __init__(
        self,
        port: int,
        with_auditor: bool = False,
        outputs: Optional[Outputs] = None,
    ) -> None:
        super().__init__(port, outputs)
        self._with_auditor = with_auditor
        self._audit: Optional[Audit] = None
        self._changes: List[Change] = []
        self.serve()

    def show(self, audit: Audit) -> None:
        """Shows an audit, and its changes since the one before."""
        with self._turn:
            before, self._audit = self._audit, audit
            journal = audit.device[0].journal
            lines = changes_between(before, audit) if before is not None else []
            self._changes = (
                [Change(journal, line) for line in reversed(lines)] + self._changes
            )[:MOST_CHANGES]
            self.notice()

    def document(self, nonce: str) -> str:
        """Returns the text of the page, whose scripts have this nonce."""
        return document(CHANGES, nonce, self.now())

    def is_ready(self) -> bool:
        """Returns whether there was an audit."""
        return self._audit is not None

    def news(self) -> Dict[str, Any]:
        """Returns what the page shows."""
        assert self._audit is not None
        return {
            "journal": self._audit.device[0].journal,
            "svg": formed(self._audit, "svg", self._with_auditor),
            "changes": [change._asdict() for change in self._changes],
        }
