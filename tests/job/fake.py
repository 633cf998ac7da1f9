# An embosser in a few lines of Python that does what a test wants: it stays away, answers nonsense, or touches the spool in between.
import socket
import threading

from trial import Trial


class Fake:
    """Takes hosts one after another at a socket. `answer(line, link)` returns what is sent for a line of a host, or None for what a good
    embosser sends; it may end the link by raising OSError. `lines` has what hosts said, `links` how many came."""

    def __init__(self, path, answer=None):
        self.path, self.answer, self.lines, self.links, self.pages = path, answer or (lambda line, link: None), [], 0, []
        self.listener = socket.socket(socket.AF_UNIX)
        self.listener.bind(path)
        self.listener.listen(4)
        self.ended = False
        self.thread = threading.Thread(target=self.serve, daemon=True)
        self.thread.start()

    def serve(self):
        while not self.ended:
            try:
                link, _ = self.listener.accept()
            except OSError:
                return
            self.links += 1
            with link:
                try:
                    self.talk(link)
                except (OSError, ValueError):
                    pass

    def talk(self, link):
        file = link.makefile("rb", 0)
        while line := file.readline():
            word, *words = line.split()
            self.lines.append(line)
            if word == b"job":
                self.read(file, int(words[1]))
            if word == b"page":
                self.pages.append((int(words[0]), int(words[1]), int(words[2]), self.read(file, 39 * int(words[2]))))
            said = self.answer(line, link)
            link.sendall(self.good(word, words) if said is None else said)

    @staticmethod
    def read(file, length):
        text = b""
        while len(text) < length:
            more = file.read(length - len(text))
            if not more:
                raise OSError
            text += more
        return text

    def good(self, word, words):
        if word == b"spool":
            return b"serves " + words[0] + b"\n"
        if word == b"restart":
            return b"count %s %d\n" % (words[0], len({page for job, page, *_ in self.pages if job == int(words[0])}))
        return b"done %s %s\n" % (words[0], words[1]) if word == b"page" else b""

    def end(self):
        self.ended = True
        try:
            self.listener.shutdown(socket.SHUT_RDWR)
        except OSError:
            pass
        self.listener.close()


class FakeTrial(Trial):
    """A trial with such an embosser."""

    def __init__(self, built, orders, answer=None, **words):
        super().__init__(built, orders, **words)
        self.answer = answer

    def start_embosser(self, program=None):
        self.fake = Fake(self.socket, self.answer)

    def stop_embosser(self):
        self.fake.end()
