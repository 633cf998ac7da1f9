# One spool with its host and its embosser, from the first order to the last page, and what is wrong with it at the end.
import itertools
import os
import pathlib
import re
import shutil
import subprocess
import tempfile
import time

from disk import Disk
from shared.orders import join

LOG_SIZE = 25  # of the host's log, KATCHIDUL_LOG_ROOM of three pages
PATIENCE = 30  # milliseconds
FOLDERS = ("in", "jobs", "done", "held", "cancelled", "refused", "asks")
STAMP = re.compile(r"^\d{4}-\d\d-\d\dT\d\d:\d\d:\d\d[+-]\d\d:\d\d ", re.M)


def order(town, rows, clock=0, first="07ea0101", latitude="404b633d07c84b5e"):
    """An order for some rows: Durham's, from 2026-01-01 on."""
    fields = [(1, town.encode()), (2, bytes.fromhex(first)), (3, rows.to_bytes(2, "big")), (4, bytes.fromhex(latitude)),
              (5, bytes.fromhex("bff95bc01a36e2eb")), (6, b"\0"), (16, clock.to_bytes(2, "big"))]
    return join(fields)


def punched_pages(file):
    """The pages that the embosser finished, in order: job, page, rows and cells."""
    text, at, pages = pathlib.Path(file).read_bytes(), 0, []
    while at < len(text):
        end = text.index(b"\n", at)
        job, page, rows = map(int, text[at:end].split()[1:])
        pages.append((job, page, rows, text[end + 1:end + 1 + 39 * rows]))
        at = end + 1 + 39 * rows
    return pages


class Trial:
    """A folder with a spool; orders are put in by name, a, b, c, .."""

    def __init__(self, built, orders, host=None, embosser=(), seconds=30):
        self.built, self.orders, self.host, self.seconds = built, orders, host or built.host, seconds
        self.folder = pathlib.Path(tempfile.mkdtemp(dir=built.folder))
        self.spool, self.socket, self.punched = self.folder / "spool", str(self.folder / "socket"), self.folder / "punched"
        self.punched.touch()
        (self.spool / "in").mkdir(parents=True)
        for at, text in enumerate(orders):
            (self.spool / "in" / f"{at:03}").write_bytes(text)
        self.embosser, self.habits = None, [str(word) for word in embosser]
        self.said, self.stamped, self.status = "", "", None

    def __enter__(self):
        self.start_embosser()
        return self

    def __exit__(self, *_):
        self.stop_embosser()
        shutil.rmtree(self.folder)

    def start_embosser(self, program=None):
        words = [program or self.built.embosser, *self.habits, self.socket, str(self.punched)]
        self.embosser = subprocess.Popen(words, stdout=subprocess.PIPE)
        self.embosser.stdout.readline()  # it is ready

    def stop_embosser(self):
        if self.embosser:
            self.embosser.kill()
            self.embosser.communicate()
        self.embosser = None

    def begin(self, after=0, how="kill", trace=None, before=None, patience=PATIENCE, stays=False, output=subprocess.PIPE,
              **settings):
        """Starts a host; after: the call at which the stopper does what `how` says; before: what its process does first; settings: more of
        the stopper's, as error=5."""
        words = {**os.environ}
        if after or trace or settings:
            words.update(LD_PRELOAD=self.built.stopper, STOPPER_AFTER=str(after), STOPPER_HOW=how, STOPPER_SPOOL=str(self.spool.resolve()))
        if trace:
            words["STOPPER_TRACE"] = str(trace)
        words.update({f"STOPPER_{name.upper()}": str(value) for name, value in settings.items()})
        options = ["-s"] if stays else []
        return subprocess.Popen([self.host, *options, "-p", str(patience), str(self.spool), self.socket], env=words, preexec_fn=before,
                                stdout=output, stderr=subprocess.STDOUT)

    def end(self, host, delay=None):
        """Waits for a host, or ends it by its id after a delay. A host that does not come to its end counts as status 99."""
        try:
            if delay is not None:
                time.sleep(delay)
                host.kill()
            said, _ = host.communicate(timeout=self.seconds)
            self.status = host.returncode
        except subprocess.TimeoutExpired:
            host.kill()
            said, _ = host.communicate()
            self.status = 99
        self.stamped = said.decode()
        self.said = STAMP.sub("", self.stamped)
        return self.status

    def run(self, **words):
        """A host from its start to its end. On a busy machine the embosser may be late for all tries of a host; then another is started."""
        for _ in range(20):
            self.end(self.begin(**words))
            if self.status != 3 or not self.embosser:
                break
        return self.status

    def embosser_is_busy(self):
        """Whether pages of some job are sent and not acknowledged."""
        for log in self.spool.glob("jobs/*/log"):
            try:
                said = self.built.library.log(log.read_bytes(), LOG_SIZE)
            except OSError:
                continue  # the job has moved
            if said.sent > said.finished:
                return True
        return False

    def release_by_hand(self):
        """Moves every held job back to jobs/."""
        for name in self.names("held"):
            (self.spool / "held" / name).rename(self.spool / "jobs" / name)

    def was_killed(self):
        return self.status == -9

    # ---- what is wrong

    def names(self, folder):
        """The names in a folder, without the sentences beside them and without unfinished files."""
        names = os.listdir(self.spool / folder) if (self.spool / folder).exists() else []
        return sorted((name for name in names if not name.endswith(".why") and name[0] != "."), key=lambda name: (len(name), name))

    def why(self, name):
        """The sentence beside a held job or a refused order, without its newline."""
        file = self.spool / f"{name}.why"
        return file.read_text().removesuffix("\n") if file.exists() else None

    def order_of(self, job):
        file = self.spool / job / "order"
        return file.read_bytes() if file.exists() else None

    def pages_by_job(self):
        jobs = {}
        for job, *page in punched_pages(self.punched):
            jobs.setdefault(job, []).append(tuple(page))
        return jobs

    def faults(self, status=0):
        """After the last host: each order is one job, all of it punched once, in order, byte for byte as the library gives it in one go."""
        wrong = []
        if self.status != status:
            wrong.append(f"status {self.status}, not {status}: {self.said.strip().splitlines()[-1:]}")
        for folder in FOLDERS:
            if folder != "done" and self.names(folder):
                wrong.append(f"{folder} has {self.names(folder)}")
        done = [self.order_of(f"done/{name}") for name in self.names("done")]
        if done != self.orders:
            wrong.append(f"{len(done)} jobs, not the {len(self.orders)} orders")
        jobs = self.pages_by_job()
        for name, text in zip(self.names("done"), done):
            punched, owed = jobs.pop(int(name), []), self.built.library.pages(text or b"")
            if punched != owed:
                wrong.append(f"job {name}: punched {[page for page, *_ in punched]} of {len(owed)} pages")
        return wrong + [f"pages of job {job}, which is not there" for job in jobs]

    def asked_faults(self):
        """After the last host, when jobs were held, released and cancelled: each order is done whole, or it is cancelled. Of a cancelled
        order the pages that its log says are punched, and no others."""
        wrong, library, jobs, texts = [], self.built.library, self.pages_by_job(), []
        wrong += [f"{folder} has {self.names(folder)}" for folder in FOLDERS if folder not in ("done", "cancelled") and self.names(folder)]
        for folder in ("done", "cancelled"):
            for name in self.names(folder):
                texts.append(self.order_of(f"{folder}/{name}"))
                log = self.spool / folder / name / "log"
                finished = library.log(log.read_bytes() if log.exists() else b"", LOG_SIZE).finished
                owed, punched = library.pages(texts[-1]), jobs.get(int(name), [])
                if punched != (owed if folder == "done" else owed[:finished]):
                    wrong.append(f"{folder}/{name}: punched {[page for page, *_ in punched]} of {len(owed)}, log {finished}")
        return wrong + ([] if sorted(texts) == sorted(self.orders) else ["an order is lost or there twice"])

    def turn_faults(self):
        """A fault of a run without accidents: the jobs' pages do not come in the turns of the library's queue."""
        owed = self.built.library.turns([len(self.built.library.pages(text)) for text in self.orders])
        punched = [(job, page) for job, page, *_ in punched_pages(self.punched)]
        return [] if punched == owed else [f"punched in the order {punched}, not {owed}"]

    def progress_faults(self):
        """A fault of a run without accidents: the host does not say, for each page that is punched, how far its job is."""
        library, owed = self.built.library, []
        for job, page, *_ in punched_pages(self.punched):
            text = self.orders[job - 1]
            town, pages = library.town(text), len(library.pages(text))
            owed.append(f"job {job} ({job - 1:03}, {town}): page {page} of {pages}, {library.dots(text, page)} dots punched; "
                        f"pages left: {pages - page}")
        told = [line.split(", jobs:")[0] for line in self.said.splitlines() if " dots punched" in line]
        return [f"told {line}, not {right}" for line, right in itertools.zip_longest(told, owed) if line != right]

    def out_of_order(self):
        """A fault of jobs that may have stopped halfway: pages that are not the first ones of their order, each once."""
        wrong = []
        for job, pages in self.pages_by_job().items():
            for folder in ("jobs", "held", "done", "cancelled"):
                text = self.order_of(f"{folder}/{job}")
                if text is not None and pages != self.built.library.pages(text)[:len(pages)]:
                    wrong.append(f"job {job} has pages twice or out of order")
        return wrong

    # ---- the order of the calls

    def unrecorded(self, disk, trace):
        """Pages that went out while a failure of power could take their record or their order away."""
        wrong, sent = [], 0
        for line in trace.read_text().splitlines():
            call, *words = line.split(" ")
            text = bytes.fromhex(words[1]) if call == "send" else b""
            if text.startswith(b"page "):
                job, page = map(int, text.split(b"\n")[0].split()[1:3])
                log, kept = disk.lasting(f"jobs/{job}/log"), disk.lasting(f"jobs/{job}/order")
                sent += 1
                if log is None or self.built.library.log(log, LOG_SIZE).sent < page:
                    wrong.append(f"page {page} of job {job} went out before its record lasted")
                if kept is None or self.built.library.page(kept, page) is None:
                    wrong.append(f"page {page} of job {job} went out before its order lasted")
            disk.follow(line)
        return wrong, sent

    def lose_power(self, disk, trace, draw):
        """The host is gone. The spool has what lasted, and some of the rest, drawn at random."""
        for line in trace.read_text().splitlines():
            disk.follow(line)
        shutil.rmtree(self.spool)
        disk.lay_down(str(self.spool), draw)
        for folder in FOLDERS:
            (self.spool / folder).mkdir(exist_ok=True)

    def disk(self, unflushed=None):
        return Disk(str(self.spool), unflushed)
