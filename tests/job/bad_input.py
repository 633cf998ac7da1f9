# Bad input: refused orders, damaged logs, a full disk, a missing embosser. Each is told in the library's words or the system's. Nothing is
# sent twice, and a job that can't go on is held and not lost.
import ctypes
import os
import random
import resource
import shutil
import signal
import socket
import subprocess
import time

from crashes import ORDERS
from trial import LOG_SIZE, Trial, order

GOOD = order("Ayr", 26)
BAD = [GOOD[:-1], GOOD + b"\x63\0\0", b"", b"\xff" * 1024, b"\1\0\1P" * 300, GOOD.replace(b"Ayr", b"A\0r"), b"\0" * 100000]


def refused_orders(checks, built):
    with Trial(built, [GOOD, *BAD, ORDERS[1]]) as trial:
        (trial.spool / "in" / "a folder").mkdir()
        (trial.spool / "in" / ".unfinished").write_bytes(GOOD)
        trial.run()
        wrong = [] if trial.status == 1 else [f"status {trial.status}"]
        for at, text in enumerate(BAD, 1):
            if f"{at:03} is refused: {built.library.refusal(text)}\n" not in trial.said:
                wrong.append(f"nothing is said of order {at}")
            if trial.why(f"refused/{at:03}") != built.library.refusal(text):
                wrong.append(f"beside order {at} is {trial.why(f'refused/{at:03}')!r}")
            if (trial.spool / "refused" / f"{at:03}").read_bytes() != text:
                wrong.append(f"order {at} is not kept as it came")
        done = {name: (trial.spool / "done" / name / "order").read_bytes() for name in trial.names("done")}
        pages = {name: built.library.pages(text) for name, text in done.items()}
        if list(done.values()) != [GOOD, ORDERS[1]] or {str(job): them for job, them in trial.pages_by_job().items()} != pages:
            wrong.append("the two right orders are not punched")
        if trial.names("in") != ["a folder"] or not (trial.spool / "in" / ".unfinished").exists():
            wrong.append(f"in has {trial.names('in')}")
    checks.check("refused orders", wrong)


def refused_again(checks, built):
    with Trial(built, BAD[:1]) as trial:
        name = "n" * os.pathconf(trial.spool, "PC_NAME_MAX")
        for text in BAD[:3]:
            (trial.spool / "in" / "000").write_bytes(text)
            (trial.spool / "in" / name).write_bytes(text)
            trial.run()
        kept = {there: (trial.spool / "refused" / there).read_bytes() for there in trial.names("refused")}
        owed = dict(zip(["000", "000.2", "000.3", name[:-15] + ".2", name[:-15] + ".3", name[:-15] + ".4"], BAD[:3] * 2))
    checks.check("refused orders of one name", [] if kept == owed else [f"kept {sorted(kept)}"])


def drop_rights():
    """Root, but bound by the files' modes as a user is: without CAP_DAC_OVERRIDE and CAP_DAC_READ_SEARCH."""
    for right in (1, 2):
        ctypes.CDLL(None).prctl(24, right, 0, 0, 0)  # PR_CAPBSET_DROP


def unreadable_orders(checks, built):
    with Trial(built, [GOOD, GOOD, ORDERS[1]]) as trial:
        into = trial.spool / "in"
        (into / "000").chmod(0)
        (into / "a").symlink_to("nowhere")
        (into / "b").symlink_to("002")
        trial.run(before=drop_rights)
        told = trial.status == 1 and "000 is refused: Permission denied\n" in trial.said
        wrong = [] if told else [f"status {trial.status}: {trial.said}"]
        if (trial.names("in"), trial.names("refused"), trial.names("done")) != (["a", "b"], ["000"], ["1", "2"]):
            wrong.append(f"in has {trial.names('in')}, refused {trial.names('refused')}, done {trial.names('done')}")
    checks.check("orders that cannot be read, and links", wrong)


def cleared_folders(checks, built):
    """Jobs whose folders are gone: their ids are not given again."""
    with Trial(built, ORDERS) as trial:
        trial.run()
        wrong = trial.faults()
        shutil.rmtree(trial.spool / "done")
        (trial.spool / "in" / "again").write_bytes(GOOD)
        trial.run()
        if trial.status != 0 or trial.names("done") != ["5"] or trial.pages_by_job().get(5) != built.library.pages(GOOD):
            wrong.append(f"status {trial.status}: {trial.said}")
    checks.check("cleared folders", wrong)


def full_queue(checks, built):
    with Trial(built, [order(f"Town {at}", 26 + at) for at in range(20)], None, ["-t", 1]) as trial:
        trial.run()
        wrong = trial.faults()
        if "016 waits: 16 jobs are in the queue.\n" not in trial.said:
            wrong.append("nothing is said of the full queue")
    checks.check("more orders than the queue takes", wrong)


def no_id_left(checks, built):
    with Trial(built, [GOOD]) as trial:
        (trial.spool / "done" / "65535").mkdir(parents=True)
        trial.run()
        told = trial.status == 1 and "000 waits: all ids of jobs up to 65535 are used; a new spool is needed\n" in trial.said
        told = told and trial.names("in") == ["000"]
    checks.check("all ids are used up", [] if told else [trial.said])


# ---- damaged logs


class Stopped:
    """A spool whose host was killed after a call, and its embosser switched off: the beginning of many trials."""

    def __init__(self, built, at):
        self.built, self.kept = built, built.folder / f"stopped.{at}"
        with Trial(built, ORDERS, None, ["-t", 1]) as trial:
            trial.run(after=at)
            trial.stop_embosser()
            shutil.copytree(trial.spool, self.kept / "spool")
            shutil.copy(trial.punched, self.kept / "punched")
            self.counts = {job: len(pages) for job, pages in trial.pages_by_job().items()}
        self.logs = {name: (self.kept / "spool/jobs" / name / "log").read_bytes()
                     for name in os.listdir(self.kept / "spool/jobs") if (self.kept / "spool/jobs" / name / "log").exists()}

    def faults_with(self, name, log):
        """A job has another log: the host says what the library says of it, and then holds the job or ends it."""
        trial = Trial(self.built, ORDERS)
        shutil.rmtree(trial.spool)
        shutil.copytree(self.kept / "spool", trial.spool)
        shutil.copy(self.kept / "punched", trial.punched)
        (trial.spool / "jobs" / name / "log").write_bytes(log)
        with trial:
            trial.run()
            refused = self.refusal(name, log)
            return (self.held_faults(trial, name, log, refused) if refused else trial.faults()), refused

    def refusal(self, name, log):
        said, count = self.built.library.log(log, LOG_SIZE), self.counts.get(int(name), 0)
        if said.number == 0:
            text = (self.kept / "spool/jobs" / name / "order").read_bytes()
            if said.sent > len(self.built.library.pages(text)):
                return 5, 3
            said = self.built.library.restart(log, LOG_SIZE, count)
        return (said.number, said.place) if said.number else None

    def held_faults(self, trial, name, log, refused):
        wrong = trial.out_of_order()
        sentence = self.built.library.sentence(*refused)
        if trial.status != 1 or f") is held: {sentence}\n" not in trial.said or trial.why(f"held/{name}") != sentence:
            wrong.append(f"job {name}: status {trial.status}, not held by {refused}: {trial.said}")
        if trial.names("held") != [name] or (trial.spool / "held" / name / "log").read_bytes() != log:
            wrong.append(f"job {name} is not kept as it was")
        if len(trial.names("done")) != len(ORDERS) - 1:
            wrong.append("another job is not done")
        if len(trial.pages_by_job().get(int(name), [])) != self.counts.get(int(name), 0):
            wrong.append(f"a page of job {name} went out")
        return wrong or self.release_faults(trial, name)

    def release_faults(self, trial, name):
        """If the held job gets its own log again and is moved back, it comes to its end."""
        (trial.spool / "held" / name / "log").write_bytes(self.logs[name])
        (trial.spool / "held" / name).rename(trial.spool / "jobs" / name)
        trial.run()
        return trial.faults()


def damaged_logs(checks, built, seed, long):
    draw, cut, cut_held, numbers = random.Random(seed), 0, 0, {}
    wrong = []
    for at in range(70, 150, 4 if long else 26):
        stopped = Stopped(built, at)
        for name, log in sorted(stopped.logs.items()):
            for length in range(0, len(log), 1 if long else 3):
                faults, refused = stopped.faults_with(name, log[:length])
                wrong += [f"log of job {name} cut at {length}: {fault}" for fault in faults]
                cut, cut_held = cut + 1, cut_held + bool(refused)
            for _ in range(12 if long else 3):
                log = draw.randbytes(draw.choice([draw.randint(5, 25), draw.randint(5, 25), draw.randint(26, 100)]))
                faults, refused = stopped.faults_with(name, log)
                wrong += [f"log {log.hex()}: {fault}" for fault in faults]
                numbers[refused] = numbers.get(refused, 0) + 1
    by_number = {}
    for refused, times in numbers.items():
        by_number[refused[0] if refused else 0] = by_number.get(refused[0] if refused else 0, 0) + times
    print(f"damaged logs: {cut} cut, of which {cut_held} jobs held; random bytes by refusal {dict(sorted(by_number.items()))}; "
          f"{len(wrong)} faults", flush=True)
    checks.check("damaged logs", wrong if by_number.get(13) else ["no random log was refused by 13"])


# ---- the disk and the embosser


def full_disk(checks, built):
    wrong, told = [], 0
    for most in range(0, 31):
        with Trial(built, ORDERS) as trial:
            trial.run(before=lambda: resource.setrlimit(resource.RLIMIT_FSIZE, (most, most)))
            if trial.status == 2 and "File too large; nothing more is sent" in trial.said:
                told += 1
            elif trial.status != 0:
                wrong.append(f"{most} bytes: status {trial.status}")
            wrong += trial.out_of_order()
            trial.run()
            wrong += trial.faults()
    print(f"full disk: told {told} times, {len(wrong)} faults")
    checks.check("full disk", wrong if told > 20 else [f"told only {told} times"])


def missing_embosser(checks, built):
    with Trial(built, ORDERS) as trial:
        for why in ("Connection refused", "No such file or directory"):
            trial.stop_embosser()
            if why.startswith("No"):
                os.unlink(trial.socket)
            trial.run()
            wrong = [] if trial.status == 3 and f"there is no embosser at {trial.socket}: {why}\n" in trial.said else [trial.said]
            if trial.names("in") != ["000", "001", "002", "003"] or trial.names("jobs"):
                wrong.append("an order was taken")
            checks.check(f"no embosser: {why}", wrong)
            trial.start_embosser()
        trial.run()
        checks.check("the embosser is back", trial.faults())


def embosser_dies(checks, built, seed, long):
    draw, wrong, lost = random.Random(seed), [], 0
    for number in range(60 if long else 6):
        with Trial(built, ORDERS, None, ["-t", 5]) as trial:
            host = trial.begin()
            time.sleep(draw.uniform(0.002, 0.03))
            trial.stop_embosser()
            lost += trial.end(host) == 3
            wrong += trial.out_of_order()
            trial.start_embosser()
            trial.run()
            wrong += trial.faults()
    print(f"the embosser dies: {lost} of {number + 1} hosts ended for it, {len(wrong)} faults")
    checks.check("the embosser dies", wrong if lost else ["never in time"])


def asked(trial, stopped=False):
    """What the embosser answers to a host that asks for job 1. Nothing, if the embosser is stopped and the host goes away before it goes
    on."""
    with socket.socket(socket.AF_UNIX) as host:
        host.settimeout(5)
        host.connect(trial.socket)
        host.sendall(b"spool " + (trial.spool / "name").read_bytes() + b"restart 1\n")
        try:
            return None if stopped else [host.makefile("rb", 0).readline() for _ in range(2)][1]
        except OSError as lost:
            return lost


def gone_hosts(checks, built):
    """A host asks and goes away before the embosser looks: the embosser answers the next host, and has the pages that it had. It is built
    so that the compiler's checks end it if it goes beyond its buffer."""
    with Trial(built, [GOOD]) as trial:
        trial.run()
        trial.stop_embosser()
        trial.start_embosser(built.checked_embosser())
        os.kill(trial.embosser.pid, signal.SIGSTOP)
        asked(trial, stopped=True)
        os.kill(trial.embosser.pid, signal.SIGCONT)
        said = asked(trial)
    checks.check("a host that is gone before its answer", [] if said == b"count 1 2\n" else [f"the embosser says {said!r}"])


def until(holds, seconds=10):
    end = time.monotonic() + seconds
    while not holds() and time.monotonic() < end:
        time.sleep(0.005)
    return holds()


def two_hosts(checks, built):
    with Trial(built, [], None, ["-t", 1]) as trial:
        words = [trial.host, "-s", "-p", "1000", str(trial.spool), trial.socket]
        first = subprocess.Popen(words, stdout=subprocess.PIPE, text=True)
        until(lambda: (trial.spool / "refused").exists())
        second = subprocess.run(words, capture_output=True, text=True)
        told = second.returncode == 2 and "another host is at work here" in second.stdout
        checks.check("a second host", [] if told else [second.stdout])
        (trial.spool / "in" / "late").write_bytes(GOOD)
        trial.orders = [GOOD]
        came = until(lambda: trial.names("done") == ["1"])
        first.terminate()
        first.communicate()
        trial.status = 0
        checks.check("a host that stays takes a late order", trial.faults() if came else ["not done"])


def run(checks, built, seed, long):
    refused_orders(checks, built)
    refused_again(checks, built)
    unreadable_orders(checks, built)
    cleared_folders(checks, built)
    full_queue(checks, built)
    no_id_left(checks, built)
    damaged_logs(checks, built, seed, long)
    full_disk(checks, built)
    missing_embosser(checks, built)
    embosser_dies(checks, built, seed, long)
    gone_hosts(checks, built)
    two_hosts(checks, built)
