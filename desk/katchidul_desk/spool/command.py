"""katchidul spool: the operator's command."""
from __future__ import annotations

import os
import pathlib
import sys

from .. import reading
from . import again, asks, jobs
from .errors import SpoolError
from .files import read_regular, shown
from .orders import ORDER_MAX
from .submit import check_name, submit, take_back

DEFAULT = "/var/spool/katchidul"
USAGE = f"""\
usage: katchidul spool [-d SPOOL] COMMAND ...

  status [--all]       what is in the spool; --all with every job that is done
  submit ORDER..       puts orders in
  cancel JOB..         ends jobs; an order that waits is named by its file
  hold JOB..           puts jobs aside
  release JOB..        lets held jobs go on
  reprint JOB PAGE..   prints pages of a job again, as new orders
  reissue JOB [--yes]  prints the pages of a held job that are not finished, as a new order

SPOOL is the spool's folder: KATCHIDUL_SPOOL, or {DEFAULT}, if -d is not given.
What the host is asked for takes effect between two pages; the other jobs go on.
"""
PATIENCE = 5  # seconds to wait for the host


class Usage(Exception):
    pass


def number(word: str) -> int:
    """A job or a page."""
    if not (word.isascii() and word.isdigit() and len(word) < 6 and 1 <= int(word) <= jobs.ID_MAX):
        raise Usage(f"{shown(word)} is no number of a job or a page")
    return int(word)


def label(job: jobs.Job) -> str:
    return f"job {job.id} ({shown(job.name)}, {shown(job.town)})"


# ---- status


def lines(found: list[jobs.Job]):
    table = [("job", "state", "pages", "order", "town")]
    table += [(str(job.id or "-"), job.state, f"{job.finished}/{job.pages}", shown(job.name), shown(job.town)) for job in found]
    widths = [max(map(len, column)) for column in zip(*table)]
    for row, job in zip(table, [None, *found]):
        yield "  ".join(cell.ljust(width) for cell, width in zip(row, widths)).rstrip()
        if job and job.sentence:
            yield f"     {shown(job.sentence)}"


def show_status(spool, words):
    if words not in ([], ["--all"]):
        raise Usage("status takes --all and nothing else")
    if sys.stdout is None:
        raise SpoolError("standard output is closed, so the status can't be shown")
    found = jobs.status(spool, None if words else 10)
    print("\n".join(lines(found)) if found else "the spool is empty")
    print("a host is at work here" if asks.host_is_at_work(spool) else "no host is at work here")


# ---- orders in


def why_not(order):
    """Why the host would refuse these bytes, or None: the operator should know it before they are in the spool."""
    if not order:
        return "is empty"
    if len(order) > ORDER_MAX:
        return f"has over {ORDER_MAX:,} bytes: it is no order"
    if b"\0" not in order:  # the length of a field begins with a zero byte, and no text has one
        return "is a text, and the spool takes orders; katchidul make TEXT --out NAME.order makes them"
    refusal = reading.read(order).refusal
    return f"is refused: {refusal.why}" if refusal else None


def submit_file(spool, word):
    order = read_regular(word, ORDER_MAX + 1)
    wrong = why_not(order)
    if wrong:
        raise SpoolError(f"{shown(word)} {wrong}")
    return submit(spool, os.path.basename(word), order)


def submit_files(spool, words):
    """Each order by itself: if one fails, the others still go in."""
    if not words:
        raise Usage("submit takes orders")
    failed = 0
    for word in words:
        try:
            name = submit_file(spool, word)
        except (SpoolError, OSError) as error:
            failed = 1
            complain(error, word)
        else:
            print(f"{shown(name)} is submitted")
    return failed


def reprint(spool, words):
    if len(words) < 2:
        raise Usage("reprint takes a job and its pages")
    job, *pages = map(number, words)
    for name in again.reprint(spool, job, pages):
        print(f"{shown(name)} is submitted")


def reissue(spool, words):
    sure = "--yes" in words
    words = [word for word in words if word != "--yes"]
    if len(words) != 1:
        raise Usage("reissue takes a job")
    job = number(words[0])
    name = again.finish_reissue(spool, job) if again.is_left(spool, job) else reissue_after_question(spool, job, sure)
    print(f"{shown(name)} is submitted" if name else "nothing is reissued")


def answer():
    """A line of the operator; empty if there is none, or if it is no text."""
    try:
        return sys.stdin.readline().strip().lower() if sys.stdin else ""
    except ValueError:
        return ""


def reissue_after_question(spool, job, sure):
    found, first, last = again.unfinished(spool, job)
    print(f"{label(found)}: not finished by its log: {again.words(first, last)} of {found.pages}.")
    if found.sent > found.finished:
        print(f"Of these the machine had {again.words(first, found.sent)}: if they lie in the tray, throw them away.")
    if not sure:
        print(f"Print {again.words(first, last)} as a new order, and end job {job}? yes or no: ", end="", flush=True)
        sure = answer() == "yes"
    return again.reissue(spool, found, first, last) if sure else None


# ---- what the host is asked for


def cancel_waiting(spool, name):
    """An order that waits is no job yet: it goes to refused/, with a sentence. If the host takes it first, it is a job."""
    check_name(name)
    jobs.check(spool)
    take_back(spool, name, "cancelled by the operator before it was a job")
    print(f"{shown(name)} is cancelled")


def ask_host(word):
    def run(spool, words):
        if not words:
            raise Usage(f"{word} takes jobs")
        for job in words:
            if word == "cancel" and not jobs.id_of(job):
                cancel_waiting(spool, job)
            else:
                report(spool, number(job), asks.ask(spool, word, number(job)))
    return run


def report(spool, job, asked):
    if asks.was_taken(asked, PATIENCE if asks.host_is_at_work(spool) else 0):
        found = jobs.settled(spool, jobs.find(spool, job), job)
        print(f"{label(found)}: {shown(found.sentence) or found.state}" if found else f"job {job} was taken out of the spool")
    elif asks.host_is_at_work(spool):
        print(f"job {job}: the host is asked, and does it after the page that is in work, when the machine answers")
    else:
        print(f"job {job}: no host is at work here; it does this when it is started")


# ---- the command

COMMANDS = {"status": show_status, "submit": submit_files, "reprint": reprint, "reissue": reissue,
            **{word: ask_host(word) for word in asks.ALLOWED}}


def complain(error, about=None):
    """A sentence on standard error; for an error of the system also the file that it is about."""
    if isinstance(error, OSError):
        about = error.filename if about is None else about
        error = error.strerror if about is None else f"{shown(os.fspath(about)) or 'an empty name'}: {error.strerror}"
    print(f"katchidul spool: {error}", file=sys.stderr)


def run(words):
    spool = os.environ.get("KATCHIDUL_SPOOL") or DEFAULT
    if words[:1] == ["-d"] and len(words) > 1:
        spool, words = words[1], words[2:]
    if words[:1] in (["--help"], ["-h"]) or words[1:2] == ["--help"]:
        print(USAGE, end="")
        return 0
    if not words or words[0] not in COMMANDS:
        raise Usage(f"{shown(words[0])} is no command" if words else "a command is missing")
    return int(COMMANDS[words[0]](pathlib.Path(spool), words[1:]) or 0)


def main(words: list[str]) -> int:
    """Status 0: done. 1: it could not be done, and a sentence says why. 2: the command is wrong."""
    try:
        status = run(words)
        if sys.stdout:
            sys.stdout.flush()
        return status
    except Usage as error:
        complain(f"{error}; katchidul spool --help says more")
        return 2
    except SpoolError as error:
        complain(error)
        return 1
    except KeyboardInterrupt:
        return 130
    except OSError as error:
        if not isinstance(error, BrokenPipeError):
            complain(error)
        close_output()
        return 1


def close_output():
    """After an error of the output Python would try once more at its end, and complain."""
    try:
        sys.stdout.flush()
    except OSError:
        os.dup2(os.open(os.devnull, os.O_WRONLY), 1)
