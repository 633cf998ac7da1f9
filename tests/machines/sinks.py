"""In place of a machine: a TCP port that keeps each connection's bytes, and a pseudo-terminal."""
import os
import pty
import select
import socket
import struct
import termios
import threading
import time
import tty


class Port:
    """`pause` is how long a page takes after its last byte. While `stuck`, nothing is read. `resets` pages are cut by a reset."""

    def __init__(self, pause=0.0):
        self.pause, self.stuck, self.resets = pause, False, 0
        self.arrived, self.cut, self.active, self.quiet_since = [], [], 0, 0.0
        self.number = 0
        self.listen()

    def listen(self):
        """Starts it, or starts it again after `end` at the same port."""
        self.server = socket.socket()
        self.server.setsockopt(socket.SOL_SOCKET, socket.SO_REUSEADDR, 1)
        self.server.bind(("127.0.0.1", self.number))
        self.server.listen(16)
        self.number = self.server.getsockname()[1]
        threading.Thread(target=self.serve, args=(self.server,), daemon=True).start()

    def serve(self, server):
        while True:
            try:
                link, _ = server.accept()
            except OSError:
                return
            self.active += 1
            threading.Thread(target=self.take_and_leave, args=(link,), daemon=True).start()

    def take_and_leave(self, link):
        self.take(link)
        self.active -= 1
        self.quiet_since = time.time()

    def quiet(self, seconds):
        return self.active == 0 and time.time() - self.quiet_since > seconds

    def take(self, link):
        came = b""
        while self.stuck:
            time.sleep(0.02)
        if self.resets:
            self.resets -= 1
            self.cut.append(link.recv(100))
            link.setsockopt(socket.SOL_SOCKET, socket.SO_LINGER, struct.pack("ii", 1, 0))
            link.close()
            return
        try:
            while some := link.recv(65536):
                came += some
        except OSError:
            self.cut.append(came)
            return
        (self.arrived if came.endswith(b"\f") else self.cut).append(came)
        time.sleep(self.pause)
        link.close()

    def end(self):
        self.server.shutdown(socket.SHUT_RDWR)
        self.server.close()


class Terminal:
    """The driver's side is `name`."""

    def __init__(self):
        self.ours, self.theirs = pty.openpty()
        tty.setraw(self.ours)
        self.name = os.ttyname(self.theirs)
        self.came, self.over = b"", False
        threading.Thread(target=self.serve, daemon=True).start()

    def stop(self):
        """From here on the line takes no byte."""
        termios.tcflow(self.theirs, termios.TCOOFF)

    def go_on(self):
        termios.tcflow(self.theirs, termios.TCOON)

    def serve(self):
        while not self.over:
            if select.select([self.ours], [], [], 0.05)[0]:
                self.came += os.read(self.ours, 65536)

    def end(self):
        self.over = True
