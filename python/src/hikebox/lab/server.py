"""`hikebox lab`: a page on this machine on which policies and storms are tried."""

from __future__ import annotations

import hmac
import json
import os
import secrets
import signal
import socket
import sys
import tempfile
import threading
import webbrowser
from html import escape
from http.server import BaseHTTPRequestHandler, ThreadingHTTPServer
from pathlib import Path
from typing import Any, Callable, Dict, Optional
from urllib.parse import parse_qsl, quote

from .._svg import STYLE
from ..cli.streams import named
from .answers import BadRequest, log_asked, plan_answer, start_answer
from .logs import MAX_LOG
from .players import BrokenOff, Players
from .uploads import Uploads

__all__ = ["Lab", "run_lab"]

_MAX_BYTES = 1 << 20
_KINDS = {"application/json": "JSON", "application/octet-stream": "a log"}
_FILES = {"": ("page.html", "text/html"), "lab.css": ("lab.css", "text/css"), "lab.js": ("lab.js", "text/javascript")}
_FOLDER = Path(__file__).resolve().parent

#: The page gets its parts from here alone, and stands in no other page.
_POLICY = (
    "default-src 'none'; script-src 'self'; style-src 'self'; connect-src 'self'; img-src data:; "
    "base-uri 'none'; form-action 'none'; frame-ancestors 'none'"
)
_HEADERS = {
    "Content-Security-Policy": _POLICY,
    "X-Content-Type-Options": "nosniff",
    "Referrer-Policy": "same-origin",
    "Cross-Origin-Resource-Policy": "same-origin",
    "Cache-Control": "no-store",
}
_OTHER_RUN = """\
This address is not that of the lab that runs here: each run has another one, which it prints. To open what a link of
another run carries: hikebox lab 'LINK'
"""


class Lab(ThreadingHTTPServer):
    """The server of the page, on 127.0.0.1."""

    daemon_threads = True
    request_queue_size = 64

    def __init__(self, port: int = 0) -> None:
        self.token = secrets.token_urlsafe(18)
        self.players = Players(max(2, min(4, os.cpu_count() or 2)))
        self.uploads = Uploads()
        #: The latest storm of each page.
        self._latest: Dict[str, int] = {}
        #: How much of it is played, from 0 to 1, where that can be told.
        self.done: Dict[str, float] = {}
        self._lock = threading.Lock()
        super().__init__(("127.0.0.1", port), _Handler)

    @property
    def port(self) -> int:
        return int(self.server_address[1])

    @property
    def address(self) -> str:
        """Where the page is."""
        return f"http://127.0.0.1:{self.port}/{self.token}/"

    def newest(self, page: str, turn: Optional[int] = None) -> Callable[[], bool]:
        """Notes a storm of a page, which counts them by turns. What is answered tells whether it is the latest one.
        (They come by several connections, so a later one may be handled before an earlier one.)"""
        with self._lock:
            if len(self._latest) > 1000:
                self._latest.clear()
                self.done.clear()
            latest = self._latest.get(page, 0)
            number = latest + 1 if turn is None else turn
            self._latest[page] = max(latest, number)
        return lambda: self._latest.get(page) == number

    def handle_error(self, request: Any, client_address: Any) -> None:
        if not isinstance(sys.exc_info()[1], ConnectionError):
            super().handle_error(request, client_address)

    def server_close(self) -> None:
        super().server_close()
        self.players.close()
        self.uploads.close()


class _Handler(BaseHTTPRequestHandler):
    """One connection."""

    protocol_version = "HTTP/1.1"
    server_version = "hikebox"
    sys_version = ""
    timeout = 120
    server: Lab

    def do_GET(self) -> None:
        name = self._name()
        if name is None:
            return
        if name not in _FILES:
            return self._answers(404, "text/plain", "there is no such page\n")
        file, kind = _FILES[name]
        text = (_FOLDER / file).read_text(encoding="utf-8")
        self._answers(200, kind, f"{text}\n{STYLE}\n" if name == "lab.css" else text)

    def do_POST(self) -> None:
        name = self._name()
        asked = None if name is None else self._told_of_log() if name == "log" else self._asked()
        if asked is None:
            return
        try:
            answer = self._answer(str(name), asked)
        except BadRequest as error:
            return self._answers(400, "text/plain", f"{error}\n")
        except BrokenOff:
            return self._answers(409, "text/plain", "the storm was broken off\n")
        if answer is None:
            return self._answers(404, "text/plain", "there is no such call\n")
        self._answers(200, "application/json", json.dumps(answer))

    def _answer(self, name: str, asked: Dict[str, Any]) -> Optional[Dict[str, Any]]:
        if name == "start":
            return start_answer()
        if name == "plan":
            return plan_answer(asked)
        if name == "done":
            return {"done": self.server.done.get(str(asked.get("page")))}
        if name not in ("storm", "sweep", "log", "part"):
            return None
        page, turn = asked.get("page"), asked.get("turn")
        if not isinstance(page, str) or len(page) > 64:
            raise BadRequest("page: expected a short text")
        if turn is not None and (isinstance(turn, bool) or not isinstance(turn, int)):
            raise BadRequest("turn: expected a whole number")
        if (name == "sweep") != ("along" in asked):
            raise BadRequest("along: expected a parameter of a sweep alone")
        if "kept" in asked:
            raise BadRequest("kept: expected none")
        if name in ("storm", "sweep"):
            return self._played(asked, self.server.newest(f"{name} {page}", turn))
        is_newest = self.server.newest(f"log {page}", turn)
        asked = {**log_asked(asked), "page": page, "kept": self.server.uploads.kept(page)}
        return self._read(asked, is_newest) if name == "log" else self._played(asked, is_newest)

    def _read(self, asked: Dict[str, Any], is_newest: Callable[[], bool]) -> Dict[str, Any]:
        """The answer to a log, which is the body."""
        size = int(self.headers["Content-Length"])
        try:
            with self.server.uploads.received(self.rfile, size) as path:
                return self._played({**asked, "log": path, "size": size}, is_newest)
        except ConnectionError:
            raise
        except OSError as error:
            return {"fault": {"name": "log", "said": f"the lab can't keep it: {error.strerror}"}}

    def _played(self, asked: Dict[str, Any], is_newest: Callable[[], bool]) -> Dict[str, Any]:
        """The answer to a storm or a sweep, as long as it is the latest one of its page."""
        page, done = asked["page"], self.server.done

        def told(share: float) -> None:
            if is_newest():
                done[page] = share

        if not is_newest():
            raise BrokenOff
        if "along" not in asked:
            done.pop(page, None)
        answer = self.server.players.play(asked, lambda: is_newest() and not self._is_gone(), told)
        if "bad" in answer:
            raise BadRequest(answer["bad"])
        return answer

    def _name(self) -> Optional[str]:
        """What is asked for, where who asks is the page; otherwise it is refused."""
        own = {f"{host}:{self.server.port}" for host in ("127.0.0.1", "localhost")}
        origin = self.headers.get("Origin")
        is_from_here = origin is None or origin in {f"http://{host}" for host in own}
        if self.headers.get("Host") not in own or not is_from_here:
            self._refuses("this page is for its own machine alone\n")
            return None
        _, _, path = self.path.partition("?")[0].partition("/")
        token, slash, name = path.partition("/")
        if not hmac.compare_digest(token.encode("utf-8", "replace"), self.server.token.encode()) or not slash:
            self._refuses(_OTHER_RUN)
            return None
        return name

    def _refuses(self, why: str) -> None:
        self.close_connection = True
        self._answers(403, "text/plain", why)

    def _has_body(self, kind: str, most: int) -> bool:
        """Whether a body of this kind and of at most so many bytes is sent. Otherwise that is answered."""
        length = self.headers.get("Content-Length", "")
        is_number = length.isascii() and length.isdigit() and len(length) < 20
        if is_number and int(length) <= most and self.headers.get_content_type() == kind:
            return True
        self.close_connection = True
        self._answers(400, "text/plain", f"expected {_KINDS[kind]} of at most {most} bytes\n")
        return False

    def _told_of_log(self) -> Optional[Dict[str, Any]]:
        """What is said of a log beside its bytes, or None where it was answered that there is none."""
        if not self._has_body("application/octet-stream", MAX_LOG):
            return None
        told: Dict[str, Any] = dict(parse_qsl(self.path.partition("?")[2]))
        numbers = {
            name: int(text) for name, text in told.items() if text.isascii() and text.isdigit() and len(text) < 20
        }
        return {**told, **{name: number for name, number in numbers.items() if name != "page"}}

    def _asked(self) -> Optional[Dict[str, Any]]:
        """The object that is sent, or None where it was answered that there is none."""
        if not self._has_body("application/json", _MAX_BYTES):
            return None
        try:
            asked = json.loads(self.rfile.read(int(self.headers["Content-Length"])))
        except (ValueError, RecursionError):
            asked = None
        if not isinstance(asked, dict):
            self._answers(400, "text/plain", "expected a JSON object\n")
            return None
        return asked

    def _answers(self, status: int, kind: str, text: str) -> None:
        body = text.encode("utf-8")
        self.send_response(status)
        self.send_header("Content-Type", f"{kind}; charset=utf-8")
        self.send_header("Content-Length", str(len(body)))
        for name, value in _HEADERS.items():
            self.send_header(name, value)
        if self.close_connection:
            self.send_header("Connection", "close")
        self.end_headers()
        self.wfile.write(body)

    def _is_gone(self) -> bool:
        """Whether who asked has closed the connection."""
        timeout = self.connection.gettimeout()
        self.connection.settimeout(0.0)
        try:
            return not self.connection.recv(1, socket.MSG_PEEK)
        except BlockingIOError:
            return False
        except OSError:
            return True
        finally:
            self.connection.settimeout(timeout)

    def log_message(self, format: str, *args: Any) -> None:
        """Nothing: the page is for one person."""


def run_lab(port: int = 0, link: str = "", opens: bool = True) -> int:
    """Serves the page until Ctrl-C: the exit status. `link` is one of another run, whose part after the `#` is kept."""
    if hasattr(signal, "SIGPIPE"):  # which Windows lacks
        signal.signal(signal.SIGPIPE, signal.SIG_IGN)
    for number in (signal.SIGINT, signal.SIGTERM):
        signal.signal(number, _interrupts)
    lab = Lab(port)
    _, mark, carried = link.partition("#")
    address = lab.address + mark + quote(carried, safe="%=&+-._~()*!',;:@/?")
    try:
        with named("write failed: standard output"):
            print(f"hikebox lab: {address} (Ctrl-C ends it)", flush=True)
        with tempfile.TemporaryDirectory(prefix="hikebox-lab-") as folder:
            if opens and _has_screen():
                door = _door(Path(folder), address)
                threading.Thread(target=webbrowser.open, args=(door.as_uri(),), daemon=True).start()
            lab.serve_forever(poll_interval=0.2)
    except KeyboardInterrupt:
        pass
    finally:
        lab.server_close()
    return 0


def _door(folder: Path, address: str) -> Path:
    """A file that leads a browser to the address, in a folder that nobody else can enter. The browser's command line,
    which all can read, names the file, and not the address with its secret."""
    door = folder / "open.html"
    door.write_text(
        f'<!DOCTYPE html><title>Hikebox lab</title><meta http-equiv="refresh" content="0; url={escape(address)}">\n',
        encoding="utf-8",
    )
    return door


def _interrupts(*_: Any) -> None:
    raise KeyboardInterrupt


def _has_screen() -> bool:
    """Whether there is a screen for a browser, or one was named."""
    has_own = sys.platform in ("darwin", "win32")
    return has_own or any(os.environ.get(name) for name in ("DISPLAY", "WAYLAND_DISPLAY", "BROWSER"))
