"""What the desk's page refuses, and that nothing a client sends, or fails to send, stops it."""
import contextlib
import pathlib
import random
import socket
import threading
import time
from urllib.parse import quote

import document
from client import LEEDS, MOST, Answer, ask, form, request, send
from katchidul_desk.page.routes import Page
from katchidul_desk.page.server import Server


def address(check, port):
    """Nothing but 127.0.0.1 listens on the port."""
    listening = []
    for name in ("/proc/net/tcp", "/proc/net/tcp6"):
        for line in pathlib.Path(name).read_text().splitlines()[1:] if pathlib.Path(name).exists() else []:
            local, state = line.split()[1], line.split()[3]
            if state == "0A" and int(local.rpartition(":")[2], 16) == port:
                listening.append(local.rpartition(":")[0])
    check("the address that listens", listening, ["0100007F"])


def senders(check, port):
    """Foreign Hosts and Origins."""
    own = "127.0.0.1:%d" % port
    for host in ("localhost:%d" % port, "LOCALHOST:%d" % port, own):
        check("Host " + host, ask(port, "GET", "/", headers={"Host": host}).status, 200)
    foreign = ("evil.example", "evil.example:%d" % port, "127.0.0.1.evil.example:%d" % port, "[::1]:%d" % port, "127.0.0.1", "127.0.0.1:1")
    mixed = (own + "@evil.example", own + ", evil.example", own + "\r\nHost: evil.example", "evil.example\r\nHost: " + own)
    for host in (None, "", *foreign, *mixed):
        for path in ("/", "/desk.js", "/jobs"):
            check("Host %r of %s" % (host, path), ask(port, "GET", path, headers={"Host": host}).status, 403)
    for origin in ("http://" + own, "http://localhost:%d" % port):
        check("Origin " + origin, ask(port, "POST", "/check", body=b"", headers={"Origin": origin}).status, 200)
    for origin in ("null", "", "http://evil.example", "https://" + own, "http://127.0.0.1", "http://%s.evil.example" % own,
                   "http://%s/" % own, "http://%s\r\nOrigin: null" % own):
        for path in ("/check", "/download", "/spool"):
            check("Origin %r of %s" % (origin, path), ask(port, "POST", path, body=form(**LEEDS), headers={"Origin": origin}).status, 403)


def paths(check, port):
    """No path leads out of the page's files or the clerk's folder."""
    for path in ("/../secret.text", "/../../etc/passwd", "/%2e%2e/%2e%2e/etc/passwd", "//etc/passwd", "/static/../server.py", "/server.py",
                 "/desk.js/..", "/..%5c..", "/desk.js%00", "/.%2e/page/server.py", "http://evil.example/", "*", "etc/passwd",
                 "/\u202edesk.js", "//127.0.0.1/", "/texts/durham.text"):
        answer = ask(port, "GET", path)
        check("GET %r" % path, answer.status in (400, 404) and b"root:" not in answer.body, True)
    for name in ("../secret.text", "/etc/passwd", "..", ".", "link.text", "folder.text", "pipe.text", "large.text", "none.text", "\0.text",
                 "a/../durham.text", "..\\secret.text", ".hidden.text", "utf16.text", "x" * 5000 + ".text"):
        answer = ask(port, "GET", "/?open=" + quote(name, safe=""))
        told = list(document.read(answer.text)[0].all("div", class_="notice"))
        check("open %r" % name[:40], (answer.status, len(told), "Secret" in answer.text), (200, 1, False))


def bodies(check, port):
    fits, over = b"text=" + b"a" * (MOST - 5), b"text=" + b"a" * (MOST - 4)
    check("a body of 64 KB", ask(port, "POST", "/check", body=fits).status, 200)
    check("a body of 64 KB and a byte", ask(port, "POST", "/check", body=over).status, 413)
    check("a body that says to be large", ask(port, "POST", "/check", body=b"", headers={"Content-Length": "9" * 19}).status, 413)
    for length in ("-1", "1e3", "+5", "0x10", "", "\u0665", "5\r\nContent-Length: 6"):
        check("length %r" % length, ask(port, "POST", "/check", body=b"town=", headers={"Content-Length": length}).status, 400)
    check("no length", ask(port, "POST", "/check", body=b"town=", headers={"Content-Length": None}).status, 411)
    pieces = {"Transfer-Encoding": "chunked", "Content-Length": None}
    check("a body in pieces", ask(port, "POST", "/check", body=b"5\r\ntown=\r\n0\r\n\r\n", headers=pieces).status, 411)
    check("a cut body", ask(port, "POST", "/check", body=b"town=", headers={"Content-Length": "50"}).status, 400)
    for kind in ("text/plain", "application/json", "multipart/form-data; boundary=x", None, ""):
        check("type %r" % kind, ask(port, "POST", "/check", body=b"town=", headers={"Content-Type": kind}).status, 415)
    for body in (b"town=%ff", b"town=\xff", b"&" * 100 + b"a=1&" * 100, b"town=%F0%9F"):
        check("body %r" % body[:12], ask(port, "POST", "/check", body=body).status, 400)


def methods(check, port):
    for method in ("PUT", "DELETE", "OPTIONS", "TRACE", "CONNECT", "PATCH", "get", "FOO", "\u00e9"):
        check("method " + method, ask(port, method, "/").status, 501)
    check("GET of what takes POST", (ask(port, "GET", "/spool").status, ask(port, "HEAD", "/check").status), (405, 405))
    check("POST of what takes GET", [ask(port, "POST", path, body=b"").status for path in ("/", "/desk.js", "/none")], [405, 405, 405])
    check("HTTP/2", ask(port, "GET", "/", version="HTTP/2.0").status, 505)
    check("a long address", ask(port, "GET", "/" + "a" * 70000).status, 414)
    check("many headers", ask(port, "GET", "/", headers={"X-%d" % at: "1" for at in range(200)}).status, 431)
    for data in (b"", b"\r\n\r\n", b"GET /\r\n\r\n", b"\0" * 2000, b"\x16\x03\x01\x02\x00\x01\x00\x01", b"GET / HTTP/1.1\r\nHost"):
        check("the bytes %r" % data[:20], Answer(send(port, data)).status in (0, 400, 403), True)


def slow_clients(check, port, seconds):
    """A client that sends a byte at a time, or nothing, is closed in time; meanwhile others are served."""
    ends = []

    def trickle(start, piece):
        began = time.monotonic()
        with socket.create_connection(("127.0.0.1", port), 60) as connection:
            try:
                connection.sendall(start)
                while time.monotonic() - began < 10 * seconds:
                    connection.sendall(piece)
                    connection.settimeout(0.4)
                    try:
                        if not connection.recv(65536):
                            break
                    except socket.timeout:
                        pass
            except ConnectionError:
                pass
        ends.append(time.monotonic() - began)
    post = request(port, "POST", "/check", body=b"", headers={"Content-Length": "60000"})
    ways = (b"", b""), (b"GET / HTTP/1.1\r\n", b"X"), (b"GE", b"T"), (post, b"a"), (post, b"")
    threads = [threading.Thread(target=trickle, args=way) for way in ways]
    for thread in threads:
        thread.start()
    check("another is served meanwhile", ask(port, "GET", "/").status, 200)
    for thread in threads:
        thread.join()
    check("slow clients are sent away in time", all(end < 6 * seconds for end in ends), True)


def lingering(check, port):
    """A client that goes on sending after its answer is cut off."""
    began = time.monotonic()
    with socket.create_connection(("127.0.0.1", port), 30) as connection:
        connection.sendall(request(port, "GET", "/style.css"))
        try:
            while time.monotonic() - began < 20:
                connection.sendall(b"more")
                time.sleep(0.05)
        except ConnectionError:
            pass
    check("a client that goes on sending", time.monotonic() - began < 10, True)


def crowd(check, port):
    """More clients than threads: some are told to come back, and afterwards the page is still served."""
    idle = [socket.create_connection(("127.0.0.1", port), 30) for _ in range(60)]
    answers = {ask(port, "GET", "/style.css").status for _ in range(5)}
    check("told to come back in a crowd", answers <= {503, 0} and 503 in answers, True)
    for one in idle:
        one.close()
    end = time.monotonic() + 20
    while ask(port, "GET", "/style.css").status != 200 and time.monotonic() < end:
        time.sleep(0.05)
    check("served after the crowd", ask(port, "GET", "/").status, 200)


def changed(check, port, count, seed):
    """Requests with bytes changed, cut, doubled and put in: each is answered or closed."""
    dice = random.Random(seed)
    body, values = form(**LEEDS), [b"<", b"'", b"\xff", b"\0", b"%00", b"\r\n", b"9" * 300, b":", b" ", b"\xe2\x80\xae"]
    plain = [request(port, "GET", path) for path in ("/", "/?open=durham.text", "/?town=x&month=2026-10", "/jobs")]
    plain += [request(port, "POST", "/check", body=body), request(port, "POST", "/download", body=form(text="town: x\n", file="x.order")),
              request(port, "POST", "/spool", body=form(text="town: x\n", token="y"))]
    wrong = 0
    for _ in range(count):
        data = bytearray(dice.choice(plain))
        for _ in range(dice.randint(1, 4)):
            at = dice.randrange(len(data))
            data[at:at + dice.randint(0, 3)] = dice.choice(values) if dice.random() < 0.6 else bytes([dice.randrange(256)])
        answer = send(port, bytes(data))
        wrong += b"Traceback" in answer or Answer(answer).status == 500 or not answer.startswith(b"HTTP/1.0 ") and answer != b""
    check("%d changed requests" % count, wrong, 0)


def odd_values(check, port, count, seed):
    """Fields with what nobody should type."""
    dice = random.Random(seed)
    pieces = ["1", "-", "2026", ":", "°", "N", "\u2212", "\u202e", "\ud7ff", "\U0001f600", "e9", ".", ",", " ", "nan", "9" * 50, "imsak",
              "\\", "\\x", "'", '"', "\n", "\0"]
    names = [*LEEDS, "from", "to", "clock", "minutes", "ramadan", "fajr-angle", "rounding", "isha-interval", "carry"]
    states = set()
    for _ in range(count):
        odd = {dice.choice(names): "".join(dice.choices(pieces, k=dice.randint(0, 8))) for _ in range(dice.randint(1, 3))}
        values = {**LEEDS, **odd}
        states.add(ask(port, "POST", "/check", body=form(**values)).status)
    check("odd values", states, {200})


@contextlib.contextmanager
def serving(folder, spool, seconds):
    """The server in this process, with another time for its clients than the command's ten seconds; its port."""
    with Server(Page(folder / "texts", spool), 0, seconds=seconds) as server:
        thread = threading.Thread(target=server.serve_forever, kwargs={"poll_interval": 0.05}, daemon=True)
        thread.start()
        yield server.server_port
        server.shutdown()
        thread.join()


def bad_clients(check, folder, spool):
    """Slow clients, those that do not stop, and a crowd."""
    with serving(folder, spool, 1.5) as port:
        slow_clients(check, port, 1.5)
        lingering(check, port)
    with serving(folder, spool, 30) as port:
        crowd(check, port)
