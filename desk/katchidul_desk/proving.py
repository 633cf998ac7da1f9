"""Proves and builds a program of the checkout by the kit's `rt`, and shows how far it is.

On a terminal one line is rewritten; else each crate gets a line. What the prover says goes into a file, whose place is told if the proof fails."""
import os
import re
import select
import shutil
import subprocess
import sys
import time

from .errors import ProgramError
from .streams import say
from .wording import shown

# rt's line for each crate, when it is done.
DONE = re.compile(r"rt: (\w+) proved \((?:(\d+) s|unchanged.*)\)$")
# As many of rt's last lines are shown if the proof fails.
LAST_LINES = 5


def prove(root, name, checked):
    """Proves everything below the program and builds it. `checked` is the file whose age says when that was last done."""
    if not shutil.which("rt"):
        raise ProgramError("rt, the command of the Rattle kit, is not there; it proves and builds the program %s" % name)
    # Made before the proof, so that a file that changes meanwhile is newer.
    begun = checked.with_suffix(".begun")
    begun.write_bytes(b"")
    log = root / "target" / (name + ".proof.log")
    status = watched(root, name, log)
    if status != 0:
        for line in log.read_text(errors="replace").splitlines()[-LAST_LINES:]:
            say(line)
        raise ProgramError("the program %s is not proved, so nothing is printed; all that rt said is in %s" % (name, log))
    begun.replace(checked)


def watched(root, name, log):
    """Runs rt, keeps what it says, and tells of each crate that is done. Returns rt's exit status."""
    progress = Progress(name, len(crates_below(root, name)))
    with open(log, "wb") as kept, subprocess.Popen(["tools/build", name], cwd=root, stdin=subprocess.DEVNULL, stdout=subprocess.PIPE,
                                                   stderr=subprocess.STDOUT) as proof:
        try:
            for line in lines_of(proof.stdout):
                kept.write(line)
                found = DONE.match(line.decode(errors="replace").rstrip("\n"))
                if found:
                    progress.add(found[1], found[2])
                elif not line:
                    progress.go_on()
        finally:
            progress.end()
    return proof.returncode


def crates_below(root, name):
    """The crates of this repository that the program uses, itself among them."""
    lines = [line.partition(":") for line in (root / "crates.txt").read_text().splitlines() if ":" in line and not line.startswith("#")]
    uses = {crate: direct.split() for crate, _, direct in lines}
    found, left = set(), [name]
    while left:
        crate = left.pop()
        if crate not in found:
            found.add(crate)
            left.extend(other for other in uses.get(crate, ()) if other in uses)
    return found


def lines_of(stream):
    """The lines of a stream, and an empty one for each second without a line, so that a clock can go on."""
    left = b""
    while True:
        if not select.select([stream], [], [], 1)[0]:
            yield b""
            continue
        piece = os.read(stream.fileno(), 65536)
        if not piece:
            break
        *whole, left = (left + piece).split(b"\n")
        yield from (line + b"\n" for line in whole)
    if left:
        yield left


class Progress:
    """How many crates are done, of how many, the last of them with its seconds, and the time so far.

    Nothing is said as long as every crate was proved before: then rt has read their files only, which takes a moment."""

    def __init__(self, name, crates):
        self.name, self.crates, self.done, self.last = name, crates, 0, None
        self.is_told = False
        self.started = time.monotonic()
        self.is_terminal = os.isatty(2)
        self.width = 0

    def add(self, crate, seconds):
        """A crate is done. It has no seconds if it was proved before, and then it gets no line of its own."""
        self.done += 1
        self.last = "%s (%s s)" % (crate, seconds) if seconds else crate
        if seconds:
            self.begin()
            if not self.is_terminal:
                say(self.line())
        if self.is_terminal and self.is_told:
            self.rewrite()

    def go_on(self):
        """Shows the time so far, since no crate was done meanwhile."""
        self.begin()
        if self.is_terminal and self.last:
            self.rewrite()

    def begin(self):
        """Says once what is being done."""
        if not self.is_told:
            say("proving the %d crates of the program %s, and building it; this is needed once, and after a change" % (self.crates, self.name))
            self.is_told = True

    def line(self):
        return "proving %d of %d: %s, %s so far" % (self.done, self.crates, self.last, lasting(time.monotonic() - self.started))

    def rewrite(self):
        line = self.line()
        # Padded, so that nothing of a longer line before it is left.
        rewritten = "\r" + shown(line).ljust(self.width)
        self.width = len(line)
        try:
            os.write(2, rewritten.encode(getattr(sys.stderr, "encoding", None) or "ascii", "backslashreplace"))
        except OSError:
            pass

    def end(self):
        if self.is_terminal and self.width:
            os.write(2, b"\n")


def lasting(seconds):
    """A duration in words: 1 min 50 s."""
    minutes, rest = divmod(int(seconds), 60)
    return "%d min %d s" % (minutes, rest) if minutes else "%d s" % rest
