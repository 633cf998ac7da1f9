"""A small host: it sends the pages of jobs to a driver, a page of each in turn, and keeps for each job what a job log keeps."""
import socket
import threading
import time

OPEN = 3


class Lost(Exception):
    """The link is lost, or an answer did not come in time."""


class Job:
    def __init__(self, number, name, order, pages):
        self.number, self.name, self.order, self.pages = number, name, order, pages
        self.sent = self.finished = 0
        self.refused = None  # a count outside of what the log allows


class Link:
    def __init__(self, path, patience=20.0):
        self.socket = socket.socket(socket.AF_UNIX)
        self.socket.settimeout(patience)
        self.patience, self.came, self.said = patience, b"", []
        self.connect(str(path), time.time() + patience)

    def connect(self, path, end):
        """A driver that has enough hosts waiting takes no more for a while."""
        while True:
            try:
                return self.socket.connect(path)
            except BlockingIOError as why:
                if time.time() > end:
                    raise Lost(str(why))
                time.sleep(0.01)
            except OSError as why:
                raise Lost(str(why))

    def send(self, *parts):
        try:
            self.socket.sendall(b"".join(parts))
        except OSError as why:
            raise Lost(str(why))

    def line(self, end):
        while b"\n" not in self.came:
            self.socket.settimeout(max(0.001, end - time.time()))
            try:
                some = self.socket.recv(4096)
            except OSError as why:
                raise Lost(str(why))
            if not some:
                raise Lost("closed")
            self.came += some
        line, self.came = self.came.split(b"\n", 1)
        return line.decode("ascii")

    def hear(self):
        """The next answer; sentences for the operator are kept aside."""
        end = time.time() + self.patience
        while True:
            line = self.line(end)
            if not line.startswith("says "):
                return line.split(" ")
            self.said.append(line[5:])

    def begin(self, spool):
        self.send(b"spool %s\n" % spool.encode())
        return self.hear()

    def close(self):
        self.socket.close()


class Host(threading.Thread):
    """Works until all jobs are done, or it is killed."""

    def __init__(self, path, jobs, spool="test-spool", patience=20.0, pause=0.1):
        super().__init__(daemon=True)
        self.path, self.jobs, self.spool, self.patience, self.pause = path, jobs, spool, patience, pause
        self.killed, self.link, self.said, self.restarts = False, None, [], 0

    def run(self):
        while not self.killed and not self.over():
            try:
                self.link = Link(self.path, self.patience)
                self.link.said = self.said
                self.work(self.link)
            except Lost:
                self.restarts += 1
                if not self.killed:
                    time.sleep(self.pause)
            finally:
                if self.link:
                    self.link.close()

    def kill(self):
        self.killed = True
        try:
            if self.link:
                self.link.socket.shutdown(socket.SHUT_RDWR)
        except OSError:
            pass
        self.join()

    def over(self):
        return all(job.refused is not None or job.finished == len(job.pages) for job in self.jobs)

    def find(self, number):
        return next(job for job in self.jobs if job.number == int(number))

    def note(self, words):
        job = self.find(words[1])
        if words[0] != "done" or int(words[2]) > job.sent:
            raise Lost("no answer: %s" % words)
        job.finished = max(job.finished, int(words[2]))

    def send_page(self, link, job, page):
        cells = job.pages[page - 1]
        link.send(b"page %d %d %d\n" % (job.number, page, len(cells) // 39), cells)

    def restart(self, link, job):
        link.send(b"restart %d\n" % job.number)
        while (words := link.hear())[0] != "count":
            self.note(words)
        count = int(words[2])
        if int(words[1]) != job.number:
            raise Lost("another job's count")
        if not job.finished <= count <= job.sent:
            job.refused = count
            return
        job.finished = count
        link.send(b"job %d %d %s\n" % (job.number, len(job.order), job.name.encode()), job.order)
        for page in range(count + 1, job.sent + 1):
            self.send_page(link, job, page)

    def work(self, link):
        if link.begin(self.spool) != ["serves", self.spool]:
            raise Lost("another spool's")
        begun = set()
        while not self.killed and not self.over():
            for job in [job for job in self.jobs if job.number not in begun]:
                begun.add(job.number)
                if job.refused is None and job.finished < len(job.pages):
                    self.restart(link, job)
            alive = [job for job in self.jobs if job.refused is None]
            ready = [job for job in alive if job.sent < len(job.pages)]
            if ready and sum(job.sent - job.finished for job in alive) < OPEN:
                job = min(ready, key=lambda job: job.sent)
                job.sent += 1
                self.send_page(link, job, job.sent)
            else:
                self.note(link.hear())
