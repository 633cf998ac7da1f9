"""A client that sends raw requests, and the desk's command to send them to."""
import os
import re
import signal
import socket
import subprocess
from urllib.parse import urlencode

import preview

LEEDS = {"town": "Leeds", "place": "53.8008, -1.5491", "month": "2026-10", "method": "MuslimWorldLeague", "zone": "Europe/London"}
FORM = "application/x-www-form-urlencoded"
MOST = 64 * 1024


class Answer:
    def __init__(self, data):
        head, _, self.body = data.partition(b"\r\n\r\n")
        status, *lines = head.decode("latin-1").split("\r\n")
        self.status = int(status.split(" ")[1]) if status.startswith("HTTP/") else 0
        self.headers = {name.lower(): value.strip() for name, _, value in (line.partition(":") for line in lines)}

    @property
    def text(self):
        return self.body.decode("utf-8")


def send(port, data, seconds=30):
    """Sends bytes and returns all that comes back. A server that closes early is no fault here."""
    answer = b""
    with socket.create_connection(("127.0.0.1", port), seconds) as connection:
        try:
            connection.sendall(data)
            connection.shutdown(socket.SHUT_WR)
            while True:
                piece = connection.recv(65536)
                if not piece:
                    break
                answer += piece
        except OSError:
            pass
    return answer


def request(port, method, path, body=None, headers=None, version="HTTP/1.1"):
    """A usual request. A header of None is left out."""
    every = {"Host": "127.0.0.1:%d" % port}
    if body is not None:
        every.update({"Content-Type": FORM, "Content-Length": str(len(body))})
    every.update(headers or {})
    lines = ["%s %s %s" % (method, path, version)] + ["%s: %s" % pair for pair in every.items() if pair[1] is not None]
    return ("\r\n".join(lines) + "\r\n\r\n").encode("utf-8") + (body or b"")


def ask(port, *words, **named):
    return Answer(send(port, request(port, *words, **named)))


def show(port, **values):
    """The form, sent as the browser does."""
    return ask(port, "GET", "/?" + form(**values).decode("ascii"))


def form(**values):
    return urlencode({name.replace("_", "-"): value for name, value in values.items()}).encode("ascii")


class Desk:
    """The command, with what it prints kept."""

    def __init__(self, command, folder, spool):
        self.errors = open(folder / "errors", "w+b")
        words = [command, "desk", "--port", "0", "--folder", folder / "texts"] + (["--spool", spool] if spool else [])
        self.process = subprocess.Popen(words, stdout=subprocess.PIPE, stderr=self.errors, stdin=subprocess.DEVNULL)
        self.said = self.process.stdout.readline().decode()
        self.port = int(re.search(r"127\.0\.0\.1:(\d+)", self.said)[1])

    def end(self, number=signal.SIGINT):
        self.process.send_signal(number)
        self.process.wait(20)
        self.process.stdout.close()
        self.errors.seek(0)
        said = self.errors.read()
        self.errors.close()
        return said


def folders(folder):
    """The clerk's folder, with what must not be opened through it beside it, and a spool."""
    texts, spool = folder / "texts", folder / "spool"
    texts.mkdir()
    for name in ("in", "jobs", "done", "held", "refused"):
        (spool / name).mkdir(parents=True)
    (folder / "secret.text").write_text((preview.EXAMPLES / "durham-clock.text").read_text().replace("town: Durham", "town: Secret"))
    (texts / "durham.text").write_bytes((preview.EXAMPLES / "durham-clock.text").read_bytes())
    (texts / "durham.order").write_bytes((preview.EXAMPLES / "durham-clock.order").read_bytes())
    (texts / "<b>.text").write_text("town: <b>\n")
    (texts / "link.text").symlink_to(folder / "secret.text")
    (texts / "folder.text").mkdir()
    (texts / "large.text").write_bytes(b"#" * (MOST + 1))
    (texts / "utf16.text").write_bytes("town: Leeds\n".encode("utf-16"))
    os.mkfifo(texts / "pipe.text")
    job = spool / "jobs" / "7"
    job.mkdir()
    (job / "order").write_bytes((preview.EXAMPLES / "durham-clock.order").read_bytes())
    (job / "name").write_text("durham.order")
    # Both pages sent, and the first done.
    (job / "log").write_bytes(bytes.fromhex("0100020001 0100020002 0200020001"))
    return texts, spool
