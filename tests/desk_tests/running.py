"""Proving, building and running the programs, in a checkout of its own with a stand-in for tools/build whose programs copy their input."""
import os
import pathlib
import re
import shutil
import signal
import subprocess
import sys
import tempfile
import time

from .checks import ROOT, check

# It reads its input, to show that the order is not there. It keeps an old program, as rt does if a change does not touch it. It counts its
# runs, and is slow while the file `slow` is there.
BUILD = """#!/bin/sh
echo "fn $1::main: proved"
echo "rt: $1 proved (1 s)" >&2
echo "build $*" >>proofs
cat
[ ! -e slow ] || sleep 0.5
[ ! -e fails ] || exit 1
mkdir -p target/bin
[ -x "target/bin/$1" ] || { printf '#!/bin/sh\\nexec cat\\n' >"target/bin/$1"; chmod +x "target/bin/$1"; }
"""
# Every byte, and what a shell would change. A zero byte makes it an order.
GIVEN = b"\1\0\4Pole\\n\\\n-n\n\r\n%s\t " + bytes(range(128, 256)) + b"\xff\0\n\n"
PROGRAMS = ("sheet", "wear", "cells", "week")


class Checkout:
    def __init__(self, folder):
        self.root = pathlib.Path(folder) / "repository"
        self.bin = pathlib.Path(folder) / "bin"
        self.bin.mkdir()
        shutil.copytree(ROOT / "desk", self.root / "desk", ignore=shutil.ignore_patterns("__pycache__"))
        shutil.copy(ROOT / "katchidul", self.root)
        for name in PROGRAMS:
            self.touch("crates/%s/src/main.rt" % name)
        self.touch("crates.txt")
        self.build = self.root / "tools" / "build"
        self.build.parent.mkdir()
        self.build.write_text(BUILD)
        self.build.chmod(0o755)
        # The command asks only whether rt is there.
        (self.bin / "rt").symlink_to(shutil.which("true"))
        # Only what the command and the stand-ins need is found, and no other rt.
        for command in ("sh", "dirname", "readlink", "cat", "sleep", "mkdir", "chmod"):
            (self.bin / command).symlink_to(shutil.which(command))
        (self.bin / "python3").symlink_to(sys.executable)

    def touch(self, name):
        path = self.root / name
        path.parent.mkdir(parents=True, exist_ok=True)
        path.write_text("")

    def environment(self):
        kept = {name: value for name, value in os.environ.items() if name != "KATCHIDUL_PROGRAMS"}
        return {**kept, "PATH": str(self.bin)}

    def start(self, *words):
        return subprocess.Popen([self.root / "katchidul", *words], stdin=subprocess.PIPE, stdout=subprocess.PIPE, stderr=subprocess.PIPE,
                                env=self.environment(), cwd="/")

    def run(self, *words, given=GIVEN):
        run = self.start(*words)
        printed, said = run.communicate(given)
        return run.returncode, printed, said.decode()

    def proofs(self):
        try:
            return (self.root / "proofs").read_text().splitlines()
        except FileNotFoundError:
            return []


def in_checkout(test):
    def tested():
        with tempfile.TemporaryDirectory() as folder:
            test(Checkout(folder))
    return tested


@in_checkout
def proofs(checkout):
    checkout.touch("fails")
    status, printed, said = checkout.run("sheet")
    check("a proof that fails prints no sheet", (status, printed, "not proved, so nothing is printed" in said), (2, b"", True))
    (checkout.root / "fails").unlink()
    status, printed, said = checkout.run("sheet")
    check("the first time", (status, printed, len(checkout.proofs())), (0, GIVEN, 2))
    check("progress", ("proving the 1 crates of the program sheet" in said, "proving 1 of 1: sheet (1 s)" in said, "fn sheet" in said), (True, True, False))
    (checkout.root / "crates" / ".#editor").symlink_to("nothing")
    os.utime(checkout.root / "crates", (0, 0))
    os.utime(checkout.root / "crates" / ".#editor", (0, 0), follow_symlinks=False)
    check("the second time, with a link to nothing", (checkout.run("sheet"), len(checkout.proofs())), ((0, GIVEN, ""), 2))
    time.sleep(0.05)
    checkout.touch("crates/sheet/src/main.rt")
    check("after a change", (checkout.run("sheet")[:2], len(checkout.proofs())), ((0, GIVEN), 3))
    check("and then no more", (checkout.run("sheet"), len(checkout.proofs())), ((0, GIVEN, ""), 3))
    time.sleep(0.05)
    checkout.touch("fails")
    checkout.touch("crates.txt")
    check("a change whose proof fails", checkout.run("sheet")[:2], (2, b""))
    check("and it is tried again", (checkout.run("sheet")[:2], len(checkout.proofs())), ((2, b""), 5))
    (checkout.root / "fails").unlink()
    check("each proves its own program", (checkout.run("wear")[:2], checkout.proofs()[-1]), ((0, GIVEN), "build wear"))
    checkout.touch("crates.txt")
    (checkout.bin / "rt").unlink()
    status, printed, said = checkout.run("sheet")
    check("without rt", (status, printed, "rt, the command of the Rattle kit, is not there" in said), (2, b"", True))


# What rt says of three crates, with the prover's notes between. The first was proved before.
SAYS = """rt: prelude proved (unchanged since it was last proved)
note: a note of the prover
fn lines::row: proved
rt: lines proved (61 s)
library lines: modules loaded=1 checked=0
rt: sheet proved (2 s)
rt: ok, 3 crates proved
"""


def told(checkout, is_terminal):
    """What the command says while it proves three crates."""
    (checkout.root / "crates.txt").write_text("# ground\nprelude:\nother: prelude\nlines: prelude\nsheet: prelude lines io libc\n")
    (checkout.root / "says").write_text(SAYS)
    checkout.build.write_text(BUILD.replace('echo "fn $1::main: proved"', "cat says").replace('echo "rt: $1 proved (1 s)" >&2\n', ""))
    if not is_terminal:
        return checkout.run("sheet")[2]
    mine, its = os.openpty()
    run = subprocess.Popen([checkout.root / "katchidul", "sheet"], stdin=subprocess.PIPE, stdout=subprocess.PIPE, stderr=its, env=checkout.environment())
    os.close(its)
    run.communicate(GIVEN)
    said = os.read(mine, 65536).decode()
    os.close(mine)
    return said


@in_checkout
def progress_in_lines(checkout):
    """A line for each crate that was proved now, how many there are, and none of the prover's notes."""
    said = told(checkout, False).splitlines()
    check("lines of progress", len(said), 3)
    check("how many crates", said[0].startswith("proving the 3 crates of the program sheet"), True)
    check("the second crate", re.fullmatch(r"proving 2 of 3: lines \(61 s\), \d+ s so far", said[1]) is not None, True)
    check("the last crate", re.fullmatch(r"proving 3 of 3: sheet \(2 s\), \d+ s so far", said[2]) is not None, True)


@in_checkout
def progress_on_a_terminal(checkout):
    """One line, rewritten, and ended once."""
    said = told(checkout, True)
    first, _, rest = said.partition("\r\n")
    steps = [step.rstrip() for step in rest.rstrip("\r\n").split("\r")[1:]]
    check("one line", (first.startswith("proving the 3 crates"), rest.count("\n"), rest.endswith("\r\n")), (True, 1, True))
    check("its steps", [step.split(", ")[0] for step in steps], ["proving 2 of 3: lines (61 s)", "proving 3 of 3: sheet (2 s)"])


@in_checkout
def nothing_to_prove(checkout):
    """A file is newer, but rt finds every crate as it was: nothing is said."""
    checkout.build.write_text(BUILD.replace('echo "rt: $1 proved (1 s)"', 'echo "rt: $1 proved (unchanged since it was last proved)"'))
    check("every crate as it was", checkout.run("sheet")[::2], (0, ""))


@in_checkout
def progress_that_fails(checkout):
    """The whole log's place, and rt's last lines."""
    checkout.touch("fails")
    said = told(checkout, False)
    log = checkout.root / "target" / "sheet.proof.log"
    check("the log's place", str(log) in said, True)
    check("the log is whole", log.read_text(), SAYS)
    check("rt's last line", "rt: ok, 3 crates proved" in said, True)


def durations():
    from katchidul_desk.proving import lasting
    check("durations", [lasting(seconds) for seconds in (0, 59.9, 60, 110, 3600)], ["0 s", "59 s", "1 min 0 s", "1 min 50 s", "60 min 0 s"])


@in_checkout
def two_at_once(checkout):
    """Two first runs share nothing but the lock: one proof, two sheets; and no sheet if it fails."""
    for fails in (False, True):
        checkout.touch("slow")
        if fails:
            checkout.touch("fails")
            checkout.touch("crates.txt")
        before = len(checkout.proofs())
        runs = [checkout.start("sheet") for _ in range(3)]
        ended = [run.communicate(GIVEN)[0] for run in runs]
        check("three at once, fails: %s" % fails, (ended, [run.returncode for run in runs]),
              ([b""] * 3, [2] * 3) if fails else ([GIVEN] * 3, [0] * 3))
        check("proofs, fails: %s" % fails, len(checkout.proofs()) - before, 3 if fails else 1)


@in_checkout
def stopped(checkout):
    """A proof that is stopped does not count."""
    checkout.touch("slow")
    run = checkout.start("sheet")
    run.stdin.write(GIVEN)
    run.stdin.close()
    for _ in range(1000):
        if checkout.proofs():
            break
        time.sleep(0.01)
    run.send_signal(signal.SIGINT)
    printed, said = run.stdout.read(), run.stderr.read()
    run.wait()
    check("stopped by the keyboard", (run.returncode, printed, "Traceback" in said.decode()), (130, b"", False))
    check("the next run proves again", (checkout.run("sheet")[:2], len(checkout.proofs())), ((0, GIVEN), 2))


@in_checkout
def refused(checkout):
    """The status tells that an order is refused. A town with the text of a refusal, and a cell with a newline's byte, are not refused."""
    checkout.run("sheet")
    program = checkout.root / "target" / "bin" / "sheet"
    for text, status in [("order refused 5 place 16\\n", 1), ("order refused 99 place 7\\n", 1),
                         ("order refused 5 place 16\\ndate fajr\\n", 0), ("order refused 5 place 16", 0), ("", 0)]:
        program.write_text("#!/bin/sh\ncat >/dev/null\nprintf '%s'\n" % text)
        wanted = text.replace("\\n", "\n").encode()
        check("a program that prints %r" % text, checkout.run("sheet")[:2], (status, wanted))
    program.write_text("#!/bin/sh\ncat >/dev/null\necho half a sheet\nexit 7\n")
    status, printed, said = checkout.run("sheet")
    check("a program that fails", (status, printed, said),
          (2, b"", "katchidul: the program sheet ended with status 7, so nothing is printed\n"))
    program.write_text("no program")
    check("a program that can't be run", checkout.run("sheet")[:2], (2, b""))
    for text in ["Pole\\n", "Pole\\ndate fajr\\n2026-06-21 +0T05:00\\n", "\\377\\n"]:
        program.write_text("#!/bin/sh\ncat >/dev/null\nprintf '%s'\n" % text)
        pole = (ROOT / "examples" / "pole.order").read_bytes()
        check("no sheet: %r" % text, checkout.run("table", given=pole)[:2], (2, b""))


def installed():
    """The programs are found beside the package, in any folder."""
    with tempfile.TemporaryDirectory(prefix="a folder's ") as folder:
        library = pathlib.Path(folder) / "lib"
        shutil.copytree(ROOT / "desk", library, ignore=shutil.ignore_patterns("__pycache__"))
        (library / "version").write_text("12.3\n")
        program = library / "sheet"
        program.write_text("#!/bin/sh\nexec cat\n")
        program.chmod(0o755)
        environment = {name: value for name, value in os.environ.items() if name != "KATCHIDUL_PROGRAMS"}
        run = lambda *words: subprocess.run([sys.executable, "-B", library, *words], input=GIVEN, capture_output=True, env=environment,
                                            check=False)
        check("the program beside the package", run("sheet").stdout, GIVEN)
        check("its version", run("--version").stdout, b"katchidul 12.3\n")
        missing = run("wear")
        check("a program that is missing", (missing.returncode, missing.stdout, b"install Katchidul again" in missing.stderr),
              (2, b"", True))


TESTS = [proofs, progress_in_lines, progress_on_a_terminal, nothing_to_prove, progress_that_fails, durations, two_at_once, stopped, refused, installed]
