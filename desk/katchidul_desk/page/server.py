"""The HTTP server of the desk's page. It listens on 127.0.0.1 alone, and nothing that a client sends, or fails to send, ends it."""
import http.server
import io
import socket
import socketserver
import threading
import time

from .. import streams
from . import answers, safety

SECONDS = 10
THREADS = 16
LINGER = 0.5
BUSY = b"HTTP/1.0 503 Busy\r\nContent-Type: text/plain\r\nRetry-After: 1\r\n\r\nThe desk is busy. Try again in a second.\n"
# What http.server itself refuses, and a request that did not end in time.
SENTENCES = {
    400: "The request is not HTTP.",
    408: "The request did not end in time.",
    414: "The address is too long.",
    431: "The request has too many headers.",
    501: "The page takes GET, HEAD and POST.",
    505: "The request has another version of HTTP.",
}


class Timed(io.RawIOBase):
    """Reads from a connection until a fixed moment, even if the client sends slowly."""

    def __init__(self, connection, seconds):
        super().__init__()
        self.connection, self.end = connection, time.monotonic() + seconds

    def readable(self):
        return True

    def readinto(self, buffer):
        left = self.end - time.monotonic()
        if left <= 0:
            raise socket.timeout("the request did not end in time")
        self.connection.settimeout(left)
        return self.connection.recv_into(buffer)


class Handler(http.server.BaseHTTPRequestHandler):
    """One request on one connection."""
    server_version, sys_version = "katchidul", ""

    def setup(self):
        super().setup()
        self.rfile = io.BufferedReader(Timed(self.connection, self.server.seconds))

    def do_GET(self):
        self.reply(self.answer())

    do_HEAD = do_POST = do_GET

    def answer(self):
        """The page's answer. A fault of the page itself is one line in the terminal and a sentence to the client."""
        try:
            safety.check_sender(self.headers, self.server.server_port)
            return self.server.page.answer(self.command, self.path, self.body() if self.command == "POST" else b"")
        except safety.Refused as why:
            return answers.sentence(str(why), why.status)
        except socket.timeout:
            return answers.sentence(SENTENCES[408], 408)
        except ConnectionError:
            # The client went away.
            raise
        except Exception as fault:  # pylint: disable=broad-except
            streams.say("katchidul: a request was not answered, by a fault of the desk (%s)" % type(fault).__name__)
            return answers.sentence("The desk could not answer, by a fault of its own.", 500)

    def body(self):
        safety.check_type(self.headers)
        length = safety.body_length(self.headers)
        body = self.rfile.read(length)
        if len(body) < length:
            raise safety.Refused(400, "The body is shorter than its stated length.")
        return body

    def reply(self, answer):
        self.connection.settimeout(self.server.seconds)
        # The answer has a status and headers, whatever protocol the client speaks.
        self.request_version = "HTTP/1.0"
        self.send_response(answer.status)
        for name, value in {**answers.HEADERS, **answer.headers, "Content-Type": answer.kind, "Content-Length": len(answer.body)}.items():
            self.send_header(name.replace("_", "-"), str(value))
        self.end_headers()
        if self.command != "HEAD":
            self.wfile.write(answer.body)
        self.close_connection = True

    def finish(self):
        """Reads on for a moment. If a connection is closed with unread bytes, the answer can be lost on its way to the client."""
        super().finish()
        try:
            self.connection.shutdown(socket.SHUT_WR)
            rest = Timed(self.connection, LINGER)
            while rest.read(65536):
                pass
        except OSError:
            pass

    def send_error(self, code, message=None, explain=None):
        """In a sentence, and with the same headers as every answer."""
        code = int(code)
        self.reply(answers.sentence(SENTENCES.get(code, "The request is refused."), code))

    def log_message(self, format, *arguments):  # pylint: disable=redefined-builtin
        """Requests are not printed: the terminal is for what a clerk should know."""


class Server(socketserver.ThreadingMixIn, http.server.HTTPServer):
    """A bounded number of threads; a client beyond it is told to come back."""
    daemon_threads = True
    request_queue_size = 64

    def __init__(self, page, port, seconds=SECONDS, threads=THREADS):
        self.page, self.seconds = page, seconds
        self.room = threading.BoundedSemaphore(threads)
        super().__init__((safety.ADDRESS, port), Handler)

    def server_bind(self):
        """Binds without asking for the machine's name, as http.server does: that may go out to the network."""
        socketserver.TCPServer.server_bind(self)
        self.server_name, self.server_port = self.server_address

    def process_request(self, request, client_address):
        if not self.room.acquire(blocking=False):
            self.turn_away(request)
            return
        try:
            super().process_request(request, client_address)
        except RuntimeError:
            # The system has no thread left.
            self.room.release()
            self.turn_away(request)

    def process_request_thread(self, request, client_address):
        try:
            super().process_request_thread(request, client_address)
        finally:
            self.room.release()

    def turn_away(self, request):
        try:
            request.settimeout(0.2)
            request.sendall(BUSY)
        except OSError:
            pass
        self.shutdown_request(request)

    def handle_error(self, request, client_address):
        """Most often a client that went away. There is nobody left to tell."""
