# The operator's side of the spool: `katchidul spool`, and the package behind it, with a host at work and without one.
import datetime
import io
import os
import random
import shutil
import signal
import subprocess
import sys
from contextlib import redirect_stderr, redirect_stdout

from bad_input import until
from build import ROOT
from trial import LOG_SIZE, Trial, order, punched_pages

sys.path.insert(0, str(ROOT / "desk"))
from katchidul_desk import spool as package  # noqa: E402
from katchidul_desk.spool import logs, orders  # noqa: E402

YEAR, MONTH, SMALL = order("Leeds", 365), order("York", 31), order("Ripon", 3)
RAMADAN = order("Durham", 30, first="07ea0212") + bytes.fromhex("1400020a01")

# Runs the command in a process of its own, which ends itself at the Nth call that writes: argv has N and the command's words.
KILLED = """
import os, signal, sys
sys.path.insert(0, sys.argv[1])
left = [int(sys.argv[2])]
def ends(call):
    def run(*words, **more):
        done = call(*words, **more)
        left[0] -= 1
        if left[0] == 0:
            os.kill(os.getpid(), signal.SIGKILL)
        return done
    return run
for name in ("open", "write", "fsync", "link", "rename", "unlink", "mkdir"):
    setattr(os, name, ends(getattr(os, name)))
from katchidul_desk.spool import main
sys.exit(main(sys.argv[3:]))
"""


def command(trial, *words, text=""):
    """The command's status and what it says."""
    said, stdin = io.StringIO(), sys.stdin
    sys.stdin = io.StringIO(text)
    try:
        with redirect_stdout(said), redirect_stderr(said):
            status = package.main(["-d", str(trial.spool), *map(str, words)])
    finally:
        sys.stdin = stdin
    return status, said.getvalue()


def killed_command(trial, at, *words):
    """Whether the command was killed by its own hand at the call."""
    run = subprocess.run([sys.executable, "-B", "-c", KILLED, str(ROOT / "desk"), str(at), "-d", str(trial.spool), *map(str, words)],
                         capture_output=True, text=True)
    return run.returncode == -signal.SIGKILL


# ---- orders and logs, held to the library


def pages_of_a_part(built, seed, trials):
    """The pages of a part of an order are the order's own pages, and no other byte of it is changed."""
    draw, wrong = random.Random(seed), []
    for _ in range(trials):
        day = datetime.date(1900, 1, 1) + datetime.timedelta(draw.randrange(109000))
        text = order("Town", draw.choice([draw.randint(1, 400), draw.randint(1, 60)]), clock=draw.randrange(800),
                     first=day.year.to_bytes(2, "big").hex() + bytes([day.month, day.day]).hex())
        if draw.random() < 0.3:
            text = text.replace(b"\3\0\2", b"\3\0\1", 1)[:15 + 3] + text[15 + 4:] if b"\3\0\2\0" in text else text
        whole = built.library.pages(text)
        if not whole:
            continue
        first = draw.randint(1, len(whole))
        last = draw.randint(first, len(whole))
        part = orders.cut(text, first, last)
        cells = [page[1:] for page in built.library.pages(part)]
        if cells != [page[1:] for page in whole[first - 1:last]]:
            wrong.append(f"pages {first} to {last} of {text.hex()}")
        changed = {at for at in range(len(text)) if text[at] != part[at]}
        allowed = {at for tag, length in ((2, 4), (3, 2)) for at in range(orders.fields(text)[tag], orders.fields(text)[tag] + length)}
        if len(part) != len(text) or not changed <= allowed:
            wrong.append(f"other bytes are changed: {text.hex()}, {part.hex()}")
        read = built.library.loaded.katchidul_read_order(text, len(text))
        asks = orders.read(text)
        if (asks.town, asks.rows, asks.first) != (built.library.town(text), read.rows, datetime.date(read.year, read.month, read.day)):
            wrong.append(f"{text.hex()} is read as {asks}")
    return wrong


def logs_as_the_library(built, seed, trials):
    draw, wrong = random.Random(seed), []
    for _ in range(trials):
        records = [(draw.choice([1, 1, 1, 2, 3, 9]), draw.choice([2] * 19 + [3]), draw.randint(0, 4)) for _ in range(draw.randint(0, 5))]
        log = b"".join(bytes([tag]) + length.to_bytes(2, "big") + page.to_bytes(2, "big") for tag, length, page in records)
        log = log[:draw.randint(0, len(log))] if draw.random() < 0.3 else log
        said, own = built.library.log(log, LOG_SIZE), logs.read(log)
        if own != ((said.finished, said.sent) if said.number == 0 else None):
            wrong.append(f"{log.hex()} is read as {own}, not {said.number, said.finished, said.sent}")
    return wrong


# ---- submit


def odd_orders(built):
    with Trial(built, []) as trial:
        here, wrong = trial.folder, []
        long = "n" * 255
        for name in ("-p", "--help", long, "with blank", "café"):
            (here / name).write_bytes(SMALL)
        (here / ".dot").write_bytes(SMALL)
        (here / "big").write_bytes(b"\0" * 1025)
        (here / "text").write_text("town: Ripon\n")
        (here / "empty").touch()
        (here / "cut").write_bytes(SMALL[:-1])
        os.mkfifo(here / "pipe")
        os.symlink("with blank", here / "link")
        back = os.getcwd()
        os.chdir(here)
        try:
            taken = [name for name in ("-p", "--help", long, "with blank", "café") if command(trial, "submit", "./" + name)[0] == 0]
            again_ = command(trial, "submit", "with blank")
            refused = [name for name in (".dot", "big", "pipe", "link", "/dev/zero", "nowhere", ".", "", "text", "empty", "cut")
                       if command(trial, "submit", name)[0] != 1]
            said = "".join(command(trial, "submit", name)[1] for name in ("text", "empty", "cut"))
            (here / "-spool").mkdir()
            with redirect_stdout(io.StringIO()):
                dashed = package.main(["-d", "-spool", "submit", "-p"])
        finally:
            os.chdir(back)
        wrong += [] if len(taken) == 5 else [f"taken are {taken}"]
        wrong += [f"{name} is submitted" for name in refused]
        sentences = ("text is a text, and the spool takes orders", "empty is empty", "cut is refused: at byte ")
        wrong += [f"not said: {part}: {said}" for part in sentences if part not in said]
        wrong += [] if again_[0] == 1 and "waits in the spool already" in again_[1] else [f"twice: {again_}"]
        wrong += [] if dashed == 0 and (here / "-spool/in/-p").read_bytes() == SMALL else ["a spool that begins with '-'"]
        left = [name for name in os.listdir(trial.spool / "in") if name.startswith(".")]
        trial.run()
        return wrong + [f"left: {left}"] * bool(left) + ([] if len(trial.names("done")) == 5 else [trial.said])


def submit_that_is_killed(built, step):
    """However it ends, the order waits whole or not at all, and nothing that comes later writes into a job's order."""
    wrong, ended = [], 0
    for at in range(1, 40, step):
        with Trial(built, []) as trial:
            for name, text in (("one", MONTH), ("two", SMALL)):
                (trial.folder / name).write_bytes(text)
            if not killed_command(trial, at, "submit", trial.folder / "one"):
                break
            ended += 1
            trial.run()
            shutil.copy(trial.folder / "two", trial.folder / "one")
            command(trial, "submit", trial.folder / "one")
            trial.run()
            done = sorted(trial.order_of(f"done/{name}") for name in trial.names("done"))
            if done not in (sorted([MONTH, SMALL]), [SMALL]) or trial.names("refused"):
                wrong.append(f"killed at call {at}: {len(done)} done, refused {trial.names('refused')}")
            wrong += [f"killed at call {at}: {fault}" for fault in trial.out_of_order()]
    return wrong if ended > 2 else [f"killed {ended} times"]


# ---- cancel, hold, release


class Working:
    """A trial with a host that stays."""

    def __init__(self, built, texts, host=None):
        self.trial = Trial(built, texts, host, ["-t", 40])

    def __enter__(self):
        self.trial.__enter__()
        self.host = self.trial.begin(stays=True, patience=3000, output=open(self.trial.folder / "said", "wb"))
        until(lambda: (self.trial.spool / "asks").exists())
        return self.trial

    def __exit__(self, *words):
        self.host.terminate()
        self.host.wait(10)
        self.trial.__exit__(*words)


def job(trial, number):
    return {job.id: job for job in package.status(trial.spool)}.get(number)


def held_and_released(built):
    with Working(built, [YEAR, MONTH]) as trial:
        until(lambda: job(trial, 1) and job(trial, 1).finished >= 2)
        status, said = command(trial, "hold", 1)
        held = job(trial, 1)
        wrong = [] if (status, held.state) == (0, "held") and "held by the operator: " in held.sentence else [f"{status} {said} {held}"]
        until(lambda: job(trial, 2).state == "done")
        there = len(trial.pages_by_job()[1])
        wrong += [] if there == held.finished else [f"{there} pages lie there, not {held.finished}"]
        status, said = command(trial, "release", 1)
        wrong += [] if status == 0 else [said]
        wrong += [] if until(lambda: job(trial, 1).state == "done", 20) else [f"it does not go on: {job(trial, 1)}"]
        trial.status = 0
        wrong += [said for status, said in [command(trial, word, 1) for word in ("hold", "release", "cancel")] if status != 1]
        return wrong + trial.faults()


def cancelled(built, host=None):
    with Working(built, [YEAR, MONTH, RAMADAN], host) as trial:
        until(lambda: job(trial, 1) and job(trial, 1).finished >= 1)
        status, said = command(trial, "cancel", 1)
        found = job(trial, 1)
        right = (status, found.state) == (0, "cancelled") and "cancelled by the operator: " in found.sentence
        wrong = [] if right else [f"{status} {said} {found}"]
        until(lambda: job(trial, 2).state == job(trial, 3).state == "done")
        pages = trial.pages_by_job()
        wrong += [] if pages[1] == built.library.pages(YEAR)[:found.finished] else ["its pages are not those that are said"]
        wrong += [] if pages[2] == built.library.pages(MONTH) and pages[3] == built.library.pages(RAMADAN) else ["the others did not go on"]
        return wrong + trial.out_of_order()


def cancelled_before_it_is_a_job(built):
    with Trial(built, [SMALL]) as trial:
        status, said = command(trial, "cancel", "000")
        wrong = [] if status == 0 and trial.why("refused/000") == "cancelled by the operator before it was a job" else [said]
        status, said = command(trial, "cancel", "000")
        wrong += [] if status == 1 else ["cancelled twice"]
        found = package.status(trial.spool)
        return wrong + ([] if [(one.state, one.town) for one in found] == [("refused", "Ripon")] else [str(found)])


def odd_asks(built):
    """Files in asks/ that ask for nothing, or for jobs that are not there, stop nobody."""
    with Trial(built, [SMALL]) as trial:
        (trial.spool / "asks" / "cancel.1").mkdir(parents=True)
        for name in ("hold.9", "release.9", "cancel.9", "hold.70000", "cancel.", "hold", "x\n\x1b", "reissue.1", "hold.1x"):
            (trial.spool / "asks" / name).touch()
        trial.run()
        left = {"cancel.1", "hold.70000", "cancel.", "hold", "x\n\x1b", "reissue.1", "hold.1x"}
        wrong = [] if set(trial.names("asks")) == left else [f"left are {trial.names('asks')}"]
        wrong += [] if trial.status == 0 and trial.names("done") == ["1"] and "\x1b" not in trial.said else [trial.said]
        return wrong + [f"it does not say that job 9 is not {word}" for word in ("held", "released", "cancelled")
                        if f"job 9 is not {word}: " not in trial.said]


def without_a_host(built):
    with Trial(built, [SMALL]) as trial:
        trial.run(after=40)
        (name,) = trial.names("jobs")
        status, said = command(trial, "hold", name)
        wrong = [] if status == 0 and "no host is at work here" in said else [said]
        trial.run()
        return wrong + ([] if trial.names("held") == [name] and not trial.pages_by_job() else [trial.said])


# ---- reprint and reissue


def reprinted(built):
    with Trial(built, [YEAR, RAMADAN]) as trial:
        trial.run()
        status, said = command(trial, "reprint", 1, 2, 4, 3, 15)
        wrong = [] if status == 0 else [said]
        status, said = command(trial, "reprint", 2, 1)
        wrong += [] if status == 1 and "a Ramadan order cannot be cut into pages" in said else [f"Ramadan: {status} {said}"]
        status, said = command(trial, "reprint", 2, 1, 2)
        wrong += [] if status == 0 else [f"all pages of a Ramadan order: {said}"]
        for words in ((1, 16), (1, 0), (1,), (9, 1), ("x", 1)):
            status, said = command(trial, "reprint", *words)
            wrong += [] if status in (1, 2) else [f"{words}: {said}"]
        trial.run()
        jobs, year = trial.pages_by_job(), built.library.pages(YEAR)
        again_ = sorted(tuple(page[1:] for page in jobs[number]) for number in (3, 4))
        owed = sorted([tuple(page[1:] for page in year[1:4]), (year[14][1:],)])
        return wrong + ([] if again_ == owed and jobs[5] == built.library.pages(RAMADAN) else [f"punched {sorted(jobs)}: {trial.said}"])


def replace_machine(trial):
    """A new machine in place of the old one. What the old one punched is in old.punched."""
    trial.stop_embosser()
    trial.punched.rename(trial.folder / "old.punched")
    (trial.folder / "punched.serves").unlink()
    trial.punched.touch()
    trial.start_embosser()


def reissued(built, step):
    """A host is killed, and the machine replaced: the job is held by 14, and reissued, by a command that is killed at each of its calls."""
    wrong, ended, at = [], 0, 0
    with Trial(built, [YEAR], None, ["-t", 1]) as trial:
        kept = trial.folder / "kept"
        trial.run(after=110)
        replace_machine(trial)
        trial.run()
        if trial.names("held") != ["1"] or "does not fit the log" not in trial.why("held/1"):
            return [f"held {trial.names('held')}: {trial.said}"]
        found = {one.id: one for one in package.status(trial.spool)}[1]
        status, said = command(trial, "reissue", 1, text="no\n")
        wrong += [] if status == 0 and "nothing is reissued" in said and trial.names("held") == ["1"] else [said]
        wrong += [] if f"pages {found.finished + 1} to 15 of 15" in said else [f"the question does not name the pages: {said}"]
        shutil.copytree(trial.spool, kept)
        while True:
            at += step
            shutil.rmtree(trial.spool)
            shutil.copytree(kept, trial.spool)
            killed = killed_command(trial, at, "reissue", 1, "--yes")
            ended += killed
            status, said = command(trial, "reissue", 1, "--yes") if killed else (0, "")
            waiting = [(trial.spool / "in" / name).read_bytes() for name in trial.names("in")]
            if waiting != [orders.cut(YEAR, found.finished + 1, 15)] or trial.names("cancelled") != ["1"]:
                wrong.append(f"killed at call {at}: {len(waiting)} orders, cancelled {trial.names('cancelled')}: {said}")
            if not killed:
                break
        trial.run()
        tray = [page[2:] for page in punched_pages(trial.folder / "old.punched") if page[0] == 1][:found.finished]
        tray += [page[2:] for page in punched_pages(trial.punched) if page[0] != 1 and page[0] == max(map(int, trial.names("done")))]
        if tray != [page[1:] for page in built.library.pages(YEAR)]:
            wrong.append(f"in the tray are {len(tray)} pages: {trial.said}")
    return wrong if ended > 3 else [f"killed {ended} times", *wrong]


# ---- status


def status_of_all(built):
    with Trial(built, [MONTH, b"", SMALL]) as trial:
        trial.run()
        (trial.spool / "in" / "later\x1b[31m").write_bytes(SMALL)
        status, said = command(trial, "status")
        found = {(one.name, one.state, one.town, one.pages, one.finished) for one in package.status(trial.spool)}
        owed = {("000", "done", "York", 2, 2), ("002", "done", "Ripon", 1, 1), ("later\x1b[31m", "waiting", "Ripon", 1, 0),
                ("001", "refused", "", 0, 0)}
        wrong = [] if found == owed else [f"found {found}"]
        wrong += ["an escape sequence is printed"] if "\x1b" in said else []
        wrong += [] if "Refusal 4" in said and "no host is at work here" in said and status == 0 else [said]
        missing = Trial(built, [])
        shutil.rmtree(missing.spool)
        wrong += [] if command(missing, "status")[0] == command(missing, "submit", __file__)[0] == 1 else ["a spool that is not there"]
        shutil.rmtree(missing.folder)
        return wrong


def run(checks, built, seed, long):
    checks.check("pages of a part of an order", pages_of_a_part(built, seed, 2000 if long else 60))
    checks.check("logs as the library reads them", logs_as_the_library(built, seed, 100000 if long else 3000))
    checks.check("a submit that is killed", submit_that_is_killed(built, 1 if long else 3))
    checks.check("a reissue that is killed", reissued(built, 1 if long else 4))
    for test in (odd_orders, held_and_released, cancelled, cancelled_before_it_is_a_job, odd_asks, without_a_host, reprinted,
                 status_of_all):
        checks.check(test.__name__.replace("_", " "), test(built))
