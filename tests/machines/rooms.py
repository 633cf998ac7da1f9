"""The host's side of a kill run: the print room's own host on a spool, or the small one of host.py. Both keep what they have to keep when
they are killed, take orders at any time, and say which orders are done."""
import os
import pathlib
import subprocess

import host


class Small:
    def __init__(self, socket, folder):
        self.socket, self.jobs, self.thread = socket, [], None
        self.start()

    def start(self):
        self.thread = host.Host(self.socket, self.jobs, patience=8.0)
        self.thread.start()

    def kill(self):
        self.thread.kill()

    def submit(self, name, order, pages):
        self.jobs.append(host.Job(len(self.jobs) + 1, name, order, pages))
        if not self.thread.is_alive():
            self.start()

    def waiting(self):
        return sum(job.refused is None and job.finished < len(job.pages) for job in self.jobs)

    def held(self):
        return [job.name for job in self.jobs if job.refused is not None]

    end = kill


class Whole:
    program = None  # katchidul-host

    def __init__(self, socket, folder):
        self.socket, self.spool = socket, pathlib.Path(folder) / "spool"
        self.spool.mkdir()
        self.start()

    def start(self):
        with (self.spool.parent / "host.out").open("ab") as out:
            words = [str(self.program), "-s", "-p", "8000", str(self.spool), str(self.socket)]
            self.process = subprocess.Popen(words, stdin=subprocess.DEVNULL, stdout=out, stderr=out)

    def kill(self):
        self.process.kill()
        self.process.wait()

    def submit(self, name, order, pages):
        (self.spool / "in").mkdir(exist_ok=True)
        (self.spool / "in" / ("." + name)).write_bytes(order)
        os.rename(self.spool / "in" / ("." + name), self.spool / "in" / name)

    def names(self, folder):
        path = self.spool / folder
        return os.listdir(path) if path.is_dir() else []

    def waiting(self):
        return len(self.names("in")) + len(self.names("jobs"))

    def held(self):
        return self.names("held") + self.names("refused")

    def end(self):
        self.process.terminate()
        self.process.wait(20)
