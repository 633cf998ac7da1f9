# Faults that were found in an earlier host, each with a way to see it. A test is named by what it would catch, and returns the faults.
import errno
import os
import pathlib
import socket
import subprocess
import time

from bad_input import drop_rights, until
from fake import FakeTrial
from trial import Trial, order

FIRST, SECOND, THIRD = order("Ayr", 26), order("Bath", 1), order("Crewe", 30)
BAD = FIRST[:-1]


def lay_job(trial, folder, name, text):
    (trial.spool / folder / name).mkdir(parents=True)
    (trial.spool / folder / name / "order").write_bytes(text)


def lost(trial, texts):
    """Which of the orders are nowhere in the spool."""
    kept = [path.read_bytes() for path in trial.spool.rglob("*") if path.is_file() and not path.is_symlink()]
    return [f"the order of {trial.built.library.town(text)} is lost" for text in texts if text not in kept]


def unpunched(trial, texts):
    """Which of the orders are not in done/, with all of their pages punched once."""
    jobs, wrong = trial.pages_by_job(), []
    done = {trial.order_of(f"done/{name}"): jobs.get(int(name)) for name in trial.names("done") if name.isdigit()}
    for text in texts:
        if done.get(text) != trial.built.library.pages(text):
            wrong.append(f"the order of {trial.built.library.town(text)} is not punched: {trial.said[-300:]}")
    return wrong


def lost_when_a_job_comes_back(built):
    """Job 1 goes from held/ to jobs/ while the host looks for an id."""
    wrong = []
    for folder in ("held", "done", "jobs", "in"):
        with Trial(built, [FIRST]) as trial:
            lay_job(trial, "held", "1", SECOND)
            (trial.spool / "jobs").mkdir()
            trial.run(move=f"{folder} held/1 jobs/1")
            trial.run()
            wrong += [f"moved at {folder}: {fault}" for fault in lost(trial, [FIRST, SECOND]) + unpunched(trial, [FIRST, SECOND])]
    return wrong


def each_failing(built, calls, lay, judge, error=errno.EIO):
    """Each of these calls of a run fails, in turn, on a spool of its own; `judge` then gives the faults. The calls of each name are counted
    apart: on a busy machine a host waits more often, so its hundredth call would be another one."""
    with Trial(built, [FIRST, SECOND]) as trial:
        lay(trial)
        trial.run(count=trial.folder / "count")
        made = (trial.folder / "count").read_text().splitlines()
    wrong = []
    for call, at in [(call, at) for call in sorted(calls) for at in range(1, made.count(call) + 1)]:
        with Trial(built, [FIRST, SECOND]) as trial:
            lay(trial)
            trial.run(after=at, how="fail", call=call, error=error)
            wrong += [f"{call} {at}: {fault}" for fault in judge(trial)]
    return wrong


def after_a_failure(trial):
    """Nothing is lost or refused, no order waits in silence, and the next host does all of it."""
    wrong = [] if trial.status or not trial.names("in") else ["status 0, and orders wait"]
    wrong += [f"{name} is refused" for name in trial.names("refused") if name != "000"]
    if trial.status == 1 and "Input/output error" not in trial.said:
        wrong.append("an order waits without a word")
    trial.release_by_hand()
    trial.run()
    return wrong + unpunched(trial, [FIRST, SECOND])


def end_of_a_folder_by_an_error(built):
    return each_failing(built, {"readdir"}, lambda trial: lay_job(trial, "done", "1", THIRD), after_a_failure)


def refused_order_overwritten(built):
    def lay(trial):
        (trial.spool / "in" / "bad").write_bytes(BAD)
        (trial.spool / "refused").mkdir()
        (trial.spool / "refused" / "bad").write_bytes(BAD[:-1])

    def judge(trial):
        status, waiting = trial.status, trial.names("in")
        trial.run()
        return lost(trial, [BAD, BAD[:-1]]) + (["status 0, and orders wait"] if status == 0 and waiting else [])

    return each_failing(built, {"fstatat"}, lay, judge)


def good_order_refused(built):
    return each_failing(built, {"faccessat", "openat", "fstat", "read"}, lambda trial: None, after_a_failure)


def order_taken_back(built):
    def answer(line, link):
        if line.startswith(b"restart"):
            (trial.spool / "in" / "000").unlink(missing_ok=True)

    with FakeTrial(built, [FIRST, SECOND], answer) as trial:
        trial.run(patience=1000)
        names = [trial.order_of(f"done/{name}") for name in trial.names("done")]
        return [] if trial.status == 0 and names == [SECOND] else [f"status {trial.status}, {len(names)} done: {trial.said[-300:]}"]


def names_that_are_no_ids(built):
    with Trial(built, [FIRST]) as trial:
        lay_job(trial, "done", "20260616", SECOND)
        lay_job(trial, "held", "70000", SECOND)
        trial.run()
        return unpunched(trial, [FIRST]) + ([] if trial.status == 0 else [f"status {trial.status}"])


# ---- one bad job


def as_file(folder):
    folder.write_bytes(b"this is no job")


def with_part(part, make):
    def lay(folder):
        folder.mkdir()
        if part != "order":
            (folder / "order").write_bytes(SECOND)
        make(folder / part)
    return lay


def unreadable(path):
    path.write_bytes(SECOND)
    path.chmod(0)


def as_link(path):
    (path.parent.parent.parent / "elsewhere").write_bytes(SECOND)
    path.symlink_to("../../elsewhere")


def as_linked_folder(folder):
    with_part("log", lambda path: None)(folder.parent.parent / "elsewhere")
    folder.symlink_to("../elsewhere")


BAD_JOBS = {"a file": as_file, "a linked folder": as_linked_folder,
            **{f"{part} {what}": with_part(part, make) for part in ("order", "log") for what, make in
               [("a folder", os.mkdir), ("unreadable", unreadable), ("a pipe", os.mkfifo), ("a link", as_link)]}}


def one_bad_job(built):
    wrong = []
    for what, lay in BAD_JOBS.items():
        with Trial(built, [FIRST], seconds=5) as trial:
            (trial.spool / "jobs").mkdir()
            lay(trial.spool / "jobs" / "7")
            trial.run(before=drop_rights)
            held = trial.status == 1 and trial.names("held") == ["7"] and " is held: " in trial.said and trial.why("held/7")
            faults = [] if held else [f"status {trial.status}, held {trial.names('held')}: {trial.said[-200:]}"]
            wrong += [f"{what}: {fault}" for fault in faults + unpunched(trial, [FIRST])]
    return wrong


# ---- waits without end


def connection_that_is_not_taken(built):
    with Trial(built, [FIRST], seconds=5) as trial:
        trial.stop_embosser()
        with socket.socket(socket.AF_UNIX) as listener:
            os.unlink(trial.socket)
            listener.bind(trial.socket)
            listener.listen(0)
            waiting = [socket.socket(socket.AF_UNIX) for _ in range(3)]
            for one in waiting:
                one.setblocking(False)
                one.connect_ex(trial.socket)
            trial.run()
            for one in waiting:
                one.close()
        return [] if trial.status == 3 else [f"status {trial.status}: {trial.said}"]


def count_that_is_never_0(built):
    def answer(line, link):
        return b"count %s 1\n" % line.split()[1] if line.startswith(b"restart") else None

    with FakeTrial(built, [FIRST], answer, seconds=5) as trial:
        lay_job(trial, "done", "65000", SECOND)
        trial.run(patience=1000)
        return [] if trial.status == 1 and trial.names("in") == ["000"] else [f"status {trial.status}: {trial.said[-300:]}"]


def answers_of_unknown_jobs(built):
    """An embosser that only says that pages of job 999 are done: the host starts again after its patience."""
    def answer(line, link):
        if not line.startswith(b"page") or trial.fake.links > 1:
            return None
        end = time.monotonic() + 10
        while time.monotonic() < end:
            link.sendall(b"done 999 1\n")
            time.sleep(0.005)
        raise OSError

    with FakeTrial(built, [FIRST], answer) as trial:
        host = trial.begin(patience=100)
        again = until(lambda: trial.fake.links > 1, 8)
        trial.end(host)
        return [] if again and trial.status == 0 else [f"status {trial.status}: {trial.said[-300:]}"]


def answer_that_is_no_number(built):
    """The log says that one page is sent. If the count were read as 1, the page would count as finished."""
    wrong = []
    for count in (b"4294967297", b"+1", b"-1", b" 1", b"1 ", b"0x1", b"1.", b"", b"\xd9\xa1", b"00000000001", b"1\0"):
        def answer(line, link):
            return b"count 1 " + count + b"\n" if line == b"restart 1\n" and trial.fake.links == 1 else None

        with FakeTrial(built, [], answer) as trial:
            lay_job(trial, "jobs", "1", SECOND)
            (trial.spool / "jobs/1/log").write_bytes(b"\1\0\2\0\1")
            trial.run(patience=300)
            punched = [page for job, page, *_ in trial.fake.pages]
            if trial.status != 0 or punched != [1]:
                wrong.append(f"count {count}: status {trial.status}, punched {punched}: {trial.said[-200:]}")
    return wrong


def send_that_has_to_wait(built):
    """A send or a recv that would have to wait is tried again, within its deadline."""
    return each_failing(built, {"send", "recv"}, lambda trial: None, lambda trial: unpunched(trial, [FIRST, SECOND]), errno.EAGAIN)


# ---- the lock


def lock_dropped_by_a_link(built):
    with Trial(built, [], None, ["-t", 1]) as trial:
        first = trial.begin(stays=True, patience=1000)
        until(lambda: (trial.spool / "refused").exists())
        os.link(trial.spool / "lock", trial.spool / "in" / "linked")
        until(lambda: not (trial.spool / "in" / "linked").exists())
        second = Trial.begin(trial)
        status = trial.end(second)
        said = trial.said
        first.terminate()
        first.communicate()
        return [] if status == 2 and "another host is at work here" in said else [f"status {status}: {said}"]


def other_error_of_the_lock(built):
    def judge(trial):
        return ["it says that another host is at work"] if "another host" in trial.said else []
    return each_failing(built, {"fcntl"}, lambda trial: None, judge)


# ---- messages


def name_that_writes_to_the_terminal(built):
    name = "a\x1b[31m\nforged line"
    with Trial(built, []) as trial:
        for text, more in ((FIRST, ""), (BAD, "bad")):
            (trial.spool / "in" / (name + more)).write_bytes(text)
        trial.run()
        wrong = ["an escape sequence is printed"] if "\x1b" in trial.said else []
        return wrong + (["a line is forged"] if "\nforged" in trial.said else []) + unpunched(trial, [FIRST])


def messages_into_files(built):
    """All three standard streams are closed."""
    with Trial(built, [FIRST, SECOND]) as trial:
        words = [trial.host, "-p", "1000", str(trial.spool), trial.socket]
        trial.status = subprocess.run(["sh", "-c", 'exec "$@" <&- >&- 2>&-', "sh", *words]).returncode
        wrong = [f"{path} has a message" for path in trial.spool.rglob("*") if path.is_file() and b"done" in path.read_bytes()]
        return wrong + trial.faults()


def seconds_of(process):
    """The processor's time that a process has used."""
    words = pathlib.Path(f"/proc/{process.pid}/stat").read_text().rsplit(")", 1)[1].split()
    return (int(words[11]) + int(words[12])) / os.sysconf("SC_CLK_TCK")


def slow_with_many_orders(built):
    """10,000 orders wait: at least 150 are done in a second of the processor's time, even on a busy machine."""
    with Trial(built, []) as trial:
        for at in range(10000):
            (trial.spool / "in" / f"{at:05}").write_bytes(SECOND)
        host = trial.begin(patience=1000, output=subprocess.DEVNULL)
        until(lambda: seconds_of(host) > 0.6, 20)
        done, seconds = len(trial.names("done")), seconds_of(host)
        host.kill()
        host.wait()
        return [] if done >= 150 * seconds else [f"{done} orders in {seconds} seconds"]


FOUND = [lost_when_a_job_comes_back, end_of_a_folder_by_an_error, refused_order_overwritten, order_taken_back, names_that_are_no_ids,
         one_bad_job, connection_that_is_not_taken, count_that_is_never_0, answers_of_unknown_jobs, send_that_has_to_wait,
         good_order_refused, lock_dropped_by_a_link, other_error_of_the_lock, answer_that_is_no_number, name_that_writes_to_the_terminal,
         messages_into_files, slow_with_many_orders]


def run(checks, built):
    for test in FOUND:
        checks.check(test.__name__.replace("_", " "), test(built))
