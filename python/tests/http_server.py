"""A server on loopback that fails as a test says."""

from __future__ import annotations

import socket
import struct
import threading
import time
from dataclasses import dataclass, field
from http.server import BaseHTTPRequestHandler, ThreadingHTTPServer
from typing import Any, Callable, Dict, Iterator, List, Optional, Tuple


@dataclass
class Answer:
    """What the server does at a request. A status of 0 is a connection that is closed with no answer."""

    status: int
    headers: Dict[str, str] = field(default_factory=dict)
    #: The body, where it is not the number of the request; and how much of it is sent before the connection is closed.
    body: Optional[bytes] = None
    sends: Optional[int] = None
    #: Seconds that pass before the answer, and before each byte of its body.
    after: float = 0.0
    drips: float = 0.0
    #: What is waited for in the middle of the body.
    holds: Optional[threading.Event] = None
    #: Whether the body has no length, and whether the connection is reset in place of an answer.
    is_chunked: bool = False
    resets: bool = False
    #: What is sent in place of an answer, and then the connection is closed.
    raw: bytes = b""


class Server(ThreadingHTTPServer):
    daemon_threads = True

    def __init__(self, listens: bool = True) -> None:
        super().__init__(("127.0.0.1", 0), Handler, bind_and_activate=False)
        self.server_bind()
        if listens:
            self.server_activate()
        self.answers: List[Answer] = [Answer(200)]
        self.requests: List[Tuple[str, str, bytes]] = []
        #: How many connections were made.
        self.connections = 0
        #: What is called at each request.
        self.took: Callable[[], None] = _nothing

    @property
    def url(self) -> str:
        return f"http://127.0.0.1:{self.server_port}"

    def says(self, *answers: Any) -> None:
        """The answers in turn, the last one repeated: statuses, statuses with headers, or `Answer`s."""
        self.answers = [_answer_of(answer) for answer in answers]
        self.requests = []
        self.connections = 0
        self.took = _nothing

    def get_request(self) -> Any:
        self.connections += 1
        return super().get_request()

    def handle_error(self, request: Any, client_address: Any) -> None:
        pass  # a client that is gone


def _answer_of(answer: Any) -> Answer:
    if isinstance(answer, Answer):
        return answer
    return Answer(answer) if isinstance(answer, int) else Answer(*answer)


def _nothing() -> None:
    pass


class Handler(BaseHTTPRequestHandler):
    protocol_version = "HTTP/1.1"
    disable_nagle_algorithm = True
    server: Server

    def answer(self) -> None:
        body = b"".join(self._body())
        self.server.requests.append((self.command, self.path, body))
        self.server.took()
        answers = self.server.answers
        answer = answers.pop(0) if len(answers) > 1 else answers[0]
        number = len(self.server.requests)
        time.sleep(answer.after)
        if answer.status == 0:
            self.wfile.write(answer.raw)
            self._cuts(answer.resets)
        else:
            self._sends(answer, f"answer {number}".encode() if answer.body is None else answer.body)

    def _body(self) -> Iterator[bytes]:
        if "Transfer-Encoding" not in self.headers:
            yield self.rfile.read(int(self.headers.get("Content-Length", 0)))
            return
        while size := int(self.rfile.readline(), 16):
            yield self.rfile.read(size)
            self.rfile.readline()
        self.rfile.readline()

    def _sends(self, answer: Answer, body: bytes) -> None:
        self.send_response(answer.status)
        for name, value in answer.headers.items():
            self.send_header(name, value)
        name, value = ("Transfer-Encoding", "chunked") if answer.is_chunked else ("Content-Length", str(len(body)))
        self.send_header(name, value)
        self.end_headers()
        if self.command == "HEAD":
            return
        if answer.is_chunked:
            body = b"%x\r\n%s\r\n0\r\n\r\n" % (len(body), body)
        if answer.drips:
            for at in range(len(body)):
                time.sleep(answer.drips)
                self.wfile.write(body[at : at + 1])
        elif answer.holds is not None:
            self.wfile.write(body[: len(body) // 2])
            answer.holds.wait(60)
            self.wfile.write(body[len(body) // 2 :])
        else:
            self.wfile.write(body if answer.sends is None else body[: answer.sends])
        if answer.sends is not None:
            self._cuts(False)

    def _cuts(self, resets: bool) -> None:
        """Ends the connection in the middle of an answer."""
        self.close_connection = True
        if resets:
            self.connection.setsockopt(socket.SOL_SOCKET, socket.SO_LINGER, struct.pack("ii", 1, 0))
            self.connection.close()
        else:
            self.connection.shutdown(socket.SHUT_RDWR)

    do_GET = do_POST = do_PUT = do_HEAD = answer

    def log_message(self, *_: Any) -> None:
        pass
