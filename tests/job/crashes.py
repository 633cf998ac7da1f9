# The crash runs: hosts that are killed and started again until all is done. Most of their time is waiting, so several run at once.
import concurrent.futures
import errno
import itertools
import os
import random
import time

from trial import Trial, order

ORDERS = [order("Ayr", 26), order("Bath", 1), order("Crewe", 75, clock=60), order("Deal", 50)]  # 2, 1, 3 and 2 pages
LONG = [order("Ely", 400), order("Fowey", 30), order("Goole", 400), order("Hull", 1)]  # 16, 2, 16 and 1
ASKED = [order("Ayr", 26), order("Bath", 100), order("Crewe", 400), order("Deal", 175), order("Ely", 1)]  # 2, 4, 16, 7 and 1
CHAIN = 400  # hosts in one trial
AT_ONCE = 6
ERRORS = [errno.EIO, errno.ENOSPC, errno.EINTR, errno.EMFILE]

# Embossers: quick or slow, with accidents or without.
HABITS = [["-t", 0], ["-t", 1], ["-t", 2, "-a", 30], ["-t", 1, "-l", 10], ["-t", 0, "-a", 10, "-l", 5]]
SLOW = [["-t", 5], ["-t", 8], ["-t", 6, "-a", 20], ["-t", 6, "-l", 5]]


class Count:
    def __init__(self, kills=0, trials=0, pages=0, faults=(), told=0):
        self.kills, self.trials, self.pages, self.faults, self.told = kills, trials, pages, list(faults), told

    def __add__(self, other):
        return Count(self.kills + other.kills, self.trials + other.trials, self.pages + other.pages, self.faults + other.faults,
                     self.told + other.told)

    def end(self, trial, what):
        if trial.status == 3:
            trial.run()
        self.trials += 1
        self.pages += sum(map(len, trial.pages_by_job().values()))
        self.faults += [f"{what}: {fault}" for fault in trial.faults()]
        return self

    def line(self, what):
        return f"{what}: {self.kills} kills in {self.trials} trials, {self.pages} pages punched, {len(self.faults)} faults"


def all_of(one, numbers):
    """The counts of one trial for each number."""
    with concurrent.futures.ThreadPoolExecutor(AT_ONCE) as pool:
        return sum(pool.map(one, numbers), Count())


def draw_of(*words):
    return random.Random(" ".join(map(str, words)))


def habits(draw, kind=None):
    return (kind or draw.choice(HABITS)) + ["-r", draw.randrange(10**6)]


def in_turn(built, seed, how="kill", host=None, step=1, first_fault=False, kind=None, seconds=30):
    """Killed after every call that writes, in turn; started again, and then run to the end."""

    def one(at):
        with Trial(built, ORDERS, host, habits(draw_of(seed, at), kind), seconds) as trial:
            trial.run(after=at, how=how)
            killed = trial.was_killed()
            if killed:
                trial.run()
            return Count(kills=killed).end(trial, f"{how} at call {at}")

    count = Count()
    for first in itertools.count(1, AT_ONCE * step):
        some = all_of(one, range(first, first + AT_ONCE * step, step))
        count += some
        if some.kills < some.trials or (first_fault and some.faults):
            return count


def killed_again(built, seed, trials, orders=ORDERS):
    """Killed after some call, or half of one, or at some moment; started again and killed again, until a host comes to its end."""

    def one(number):
        draw, kills = draw_of(seed, number), 0
        with Trial(built, orders, None, habits(draw)) as trial:
            for _ in range(CHAIN):
                if not killed_somehow(trial, draw):
                    break
                kills += 1
            return Count(kills=kills).end(trial, f"chain {seed}, trial {number}")

    return all_of(one, range(trials))


def with_asks(built, seed, trials):
    """The same while the operator holds, releases and cancels jobs at any moment, and the embosser is killed and started again too."""

    def one(number):
        draw, kills, faults = draw_of("asks", seed, number), 0, []
        with Trial(built, ASKED, None, draw.choice(SLOW) + ["-r", draw.randrange(10**6)]) as trial:
            for turn in range(CHAIN):
                kills += asked_somehow(trial, draw, cancels=turn < 8)
                faults += [] if trial.status in (0, 3, -9) else [f"status {trial.status}: {trial.said[-200:]}"]
                if turn > 12 and not trial.was_killed():
                    break
            for name in trial.names("asks"):
                (trial.spool / "asks" / name).unlink()
            trial.release_by_hand()
            trial.run()
            faults += trial.asked_faults() + ([] if trial.status == 0 else [f"status {trial.status}: {trial.said[-200:]}"])
            count = Count(kills=kills, trials=1, faults=[f"asks {seed}, trial {number}: {fault}" for fault in faults])
            count.pages = sum(map(len, trial.pages_by_job().values()))
            return count

    return all_of(one, range(trials))


def asked_somehow(trial, draw, cancels):
    """Runs a host, asks it for changes while it is at work, and kills it or its embosser. Returns how many were killed."""
    after, kills = draw.choice([0, draw.randint(20, 300)]), 0
    host = trial.begin(after=after, how=draw.choice(["kill", "torn"]))
    (trial.spool / "asks").mkdir(exist_ok=True)
    end = time.monotonic() + 2
    while host.poll() is None and not (trial.names("jobs") and trial.embosser_is_busy()) and time.monotonic() < end:
        time.sleep(0.002)
    time.sleep(draw.uniform(0, 0.06))
    for _ in range(draw.choice([0, 1, 2, 4])):
        word = draw.choice(["hold", "hold", "release", "release"] + ["cancel"] * cancels)
        (trial.spool / "asks" / f"{word}.{draw.randint(1, len(ASKED) + 1)}").touch()
    if draw.random() < 0.2:
        trial.stop_embosser()
        trial.start_embosser()
        kills += 1
    trial.end(host, delay=draw.uniform(0, 0.05) if not after and draw.random() < 0.6 else None)
    return kills + trial.was_killed()


def killed_somehow(trial, draw):
    """Runs a host to some call or some moment, or kills its embosser. Returns how many were killed."""
    if draw.random() < 0.3:
        host = trial.begin()
        time.sleep(draw.expovariate(200))
        trial.stop_embosser()
        trial.start_embosser()
        trial.end(host)
        return 1
    if draw.random() < 0.3:
        trial.end(trial.begin(), delay=draw.expovariate(200))
    else:
        trial.run(after=draw.randint(1, 90), how=draw.choice(["kill", "torn"]))
    return trial.was_killed()


def without_power(built, seed, trials, host=None, seconds=30):
    """Killed after some call, and the spool has only what lasted; started again, until a host comes to its end."""

    def one(number):
        draw, kills = draw_of(seed, number), 0
        with Trial(built, ORDERS, host, habits(draw), seconds) as trial:
            for turn in range(CHAIN):
                disk, trace = trial.disk(), trial.folder / f"trace.{turn}"
                trial.run(after=draw.randint(1, 70), how=draw.choice(["kill", "torn"]), trace=trace)
                if not trial.was_killed():
                    break
                kills += 1
                trial.lose_power(disk, trace, draw)
            return Count(kills=kills).end(trial, f"power {seed}, trial {number}")

    return all_of(one, range(trials))


def without_accidents(built, orders=ORDERS, host=None):
    """Without accidents all is punched, in the queue's turns, and the host says how far each job is."""
    with Trial(built, orders, host, ["-t", 1]) as trial:
        trial.run(patience=5000)
        return trial.faults() + trial.turn_faults() + trial.progress_faults()


def calls_of_a_run(built, lay):
    """Which calls a host makes from its start to its end, of every kind."""
    with Trial(built, ORDERS, None, ["-t", 0]) as trial:
        lay(trial)
        count = trial.folder / "count"
        trial.run(count=count)
        return count.read_text().splitlines()


def lay_asks(trial):
    """Three of the orders are jobs already, one of them held, and the operator asks for a change of each; a fourth is bad."""
    for job, folder, word in ((1, "jobs", "hold"), (2, "jobs", "cancel"), (3, "held", "release")):
        (trial.spool / folder / str(job)).mkdir(parents=True)
        (trial.spool / "in" / f"{job - 1:03}").rename(trial.spool / folder / str(job) / "order")
        (trial.spool / "asks").mkdir(exist_ok=True)
        (trial.spool / "asks" / f"{word}.{job}").touch()
    (trial.spool / "in" / "bad").write_bytes(b"")


def failing(built, seed, step=1, errors=ERRORS, lay=lambda trial: None):
    """Each call fails once, in turn, by each error: the host says so and ends, or the order waits, or the job is held, or the link is
    opened again. Then a host runs to the end."""

    def one(number):
        at, error = number // len(errors) + 1, errors[number % len(errors)]
        with Trial(built, ORDERS, None, habits(draw_of(seed, number))) as trial:
            lay(trial)
            trial.run(after=at, how="fail", error=error)
            faults, told = trial.out_of_order(), told_of_failure(trial)
            if trial.status != 0 and not told:
                faults.append(f"status {trial.status} without a word: {trial.said}")
            for _ in range(2):  # what is asked may hold a job once more
                trial.release_by_hand()
                trial.run()
            (trial.spool / "refused" / "bad").unlink(missing_ok=True)
            faults += trial.asked_faults() + ([] if trial.status == 0 else [f"status {trial.status}: {trial.said[-200:]}"])
            return Count(trials=1, told=told, faults=[f"call {at} failed by {os.strerror(error)}: {fault}" for fault in faults])

    numbers = range(0, (len(calls_of_a_run(built, lay)) + 5) * len(errors), step)
    return all_of(one, numbers)


def told_of_failure(trial):
    """Whether the host says what failed, in the words for its exit status, or in a sentence beside the order."""
    if trial.status == 1 and list(trial.spool.glob("refused/*.why")):
        return True
    words = {1: (" waits: ", " is held: ", " is refused: ", " is passed over"), 2: ("; nothing more is sent",), 3: ("embosser at ",)}
    return any(word in trial.said for word in words.get(trial.status, ()))


def in_pieces(built, seed, trials):
    """Reads and writes of a few bytes each time."""

    def one(number):
        draw = draw_of(seed, number)
        with Trial(built, ORDERS, None, habits(draw)) as trial:
            trial.run(short=draw.choice([1, 2, 3, 7, 40]), patience=2000)
            return Count().end(trial, f"in pieces {seed}, trial {number}")

    return all_of(one, range(trials))


def order_of_calls(built, seed, trials, host=None):
    """No page goes out before its record and its order last, even if the order was put in without a flush. Returns the faults, and how many
    pages were looked at."""

    def one(number):
        with Trial(built, ORDERS, host, habits(draw_of(seed, number)), 5) as trial:
            disk, trace = trial.disk(unflushed="in"), trial.folder / "trace"
            trial.run(trace=trace)
            faults, pages = trial.unrecorded(disk, trace)
            return Count(pages=pages, faults=faults)

    return all_of(one, range(trials))
