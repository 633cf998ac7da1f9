# The host as a service: it stays, tells what happens, ends when it is told to, and serves its own spool alone.
import random
import signal
import time

from bad_input import until
from crashes import ORDERS
from fake import FakeTrial
from trial import STAMP, Trial, order

GOOD, POLE = order("Ayr", 26), order("Park", 16, first="07ea0601", latitude="4056800000000000")


def stays_and_waits(built):
    """No embosser, then one, then none while there is nothing to do, then one: each is said once."""
    with Trial(built, [GOOD], None, ["-t", 1]) as trial:
        trial.stop_embosser()
        output = open(trial.folder / "said", "wb+")
        host = trial.begin(stays=True, patience=300, output=output)
        said = lambda: STAMP.sub("", (trial.folder / "said").read_text())
        wrong = [] if until(lambda: "; waiting for it" in said()) else ["nothing is said of the missing embosser"]
        time.sleep(0.4)
        trial.start_embosser()
        wrong += [] if until(lambda: "the embosser is back\n" in said() and trial.names("done") == ["1"]) else ["it is not back"]
        before = said().count("; waiting for it")
        trial.stop_embosser()
        wrong += [] if until(lambda: said().count("; waiting for it") > before) else ["nothing is said of the lost embosser"]
        trial.start_embosser()
        wrong += [] if until(lambda: said().count("the embosser is back\n") == 2) else ["it is not back again"]
        host.send_signal(signal.SIGTERM)
        trial.status = host.wait(5)
        wrong += [] if said().endswith("SIGTERM ends the host; jobs in work: 0\n") else [f"at its end it says {said()[-100:]}"]
        wrong += [] if said().count("; waiting for it") <= 3 else [f"it says too often that it waits: {said()}"]
        wrong += [f"a line without a time: {line}" for line in open(output.name) if not STAMP.match(line)]
        return wrong + trial.faults()


def machine_that_is_late(built):
    """If a machine listens a moment after the host has started, it is not waited for long, even with much patience."""
    with Trial(built, [GOOD], None, ["-t", 1]) as trial:
        trial.stop_embosser()
        began, host = time.monotonic(), trial.begin(patience=60000)
        time.sleep(0.3)
        trial.start_embosser()
        trial.end(host)
        took = time.monotonic() - began
        return trial.faults() + ([] if took < 5 else [f"it took {took:.1f} seconds"])  # a later pause alone takes 6


def ends_between_two_messages(built, seed, trials):
    wrong, ended = [], 0
    for number in range(trials):
        draw = random.Random(f"{seed} {number}")
        pieces = []

        def read(file, length):
            text = b""
            while len(text) < length and (more := file.read(length - len(text))):
                text += more
            if len(text) < length:
                pieces.append(length - len(text))
                raise OSError
            return text

        with FakeTrial(built, ORDERS) as trial:
            trial.fake.read = read
            host = trial.begin(stays=True, patience=1000)
            time.sleep(draw.uniform(0, 0.02))
            name = draw.choice(["SIGTERM", "SIGINT"])
            host.send_signal(getattr(signal, name))
            trial.end(host)
            ended += f"{name} ends the host" in trial.said
            if trial.status not in (0, -getattr(signal, name)) or pieces:
                wrong.append(f"{name}: status {trial.status}, cut messages {pieces}")
    return wrong if ended else ["no host was ended in time"]


def another_spool(built):
    with Trial(built, [GOOD]) as trial:
        (trial.folder / "punched.serves").write_text("another-spool")
        trial.run()
        wrong = [] if trial.status == 3 and ": it serves the spool another-spool, and this is spool-" in trial.said else [trial.said]
        return wrong + ([] if trial.names("in") == ["000"] and not trial.pages_by_job() else ["something was sent"])


def a_spool_keeps_its_name(built):
    """The name is made once, and a machine keeps the first one; a second spool at the same machine is noticed."""
    with Trial(built, [GOOD]) as trial:
        trial.run()
        name, wrong = (trial.spool / "name").read_text(), trial.faults()
        trial.run()
        wrong += [] if (trial.spool / "name").read_text() == name else ["the name is another"]
        trial.spool.rename(trial.folder / "first")
        (trial.spool / "in").mkdir(parents=True)
        trial.run()
        return wrong + ([] if trial.status == 3 and "serves the spool" in trial.said else [trial.said])


def odd_greetings(built):
    wrong = []
    for said in (b"serves\n", b"serves " + b"x" * 65 + b"\n", b"count 1 0\n", b"\n", b"x" * 300, b"serves a\x1bb\n", b"done 1 1\n"):
        with FakeTrial(built, [GOOD], lambda line, link: said) as trial:
            trial.run(patience=100)
            if trial.status != 3 or trial.names("in") != ["000"] or "\x1b" in trial.said:
                wrong.append(f"{said[:20]}: status {trial.status}: {trial.said[-200:]}")
    return wrong


def tells_what_it_does(built):
    """The order goes with the job, the machine's sentences are told, and the order's name and town are everywhere."""
    name = "100% of leeds\x01.order"
    def answer(line, link):
        return b"says paper is low\n" + trial.fake.good(*(line.split()[:1] + [line.split()[1:]])) if line.startswith(b"page 1 1 ") else None

    with FakeTrial(built, [], answer) as trial:
        (trial.spool / "in" / name).write_bytes(GOOD)
        (trial.spool / "in" / "pole").write_bytes(POLE)
        (trial.spool / "in" / "zz").write_bytes(b"")
        trial.run(patience=1000)
        label = "job 1 (100% of leeds\\x01.order, Ayr)"
        owed = [f"{label} is taken, pages: 2", f"{label}: page 1 of 2, 2123 dots punched; pages left: 1, jobs: 2, orders: 0",
                f"{label}: done", "the embosser says: paper is low", "zz is refused: Refusal 4",
                "job 2 (pole, Park): the 16 days from 2026-06-01 to 2026-06-16 are refused: Refusal "]
        wrong = [f"it does not say: {line}" for line in owed if line not in trial.said]
        if f"job 1 {len(GOOD)} 100%25%20of%20leeds%01.order\n".encode() not in trial.fake.lines:
            wrong.append(f"the order is not announced: {[line for line in trial.fake.lines if line.startswith(b'job')]}")
        kept = (trial.spool / "done/1/name").read_text()
        return wrong + ([] if kept == name else [f"its name is kept as {kept!r}"]) + ([trial.said] if wrong else [])


def run(checks, built, seed, long):
    for test in (stays_and_waits, machine_that_is_late, another_spool, a_spool_keeps_its_name, odd_greetings, tells_what_it_does):
        checks.check(test.__name__.replace("_", " "), test(built))
    checks.check("ends between two messages", ends_between_two_messages(built, seed, 200 if long else 15))
