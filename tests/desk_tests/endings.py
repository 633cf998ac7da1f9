"""Streams that are closed, full, a folder or without an end, and terminals of ASCII: each gets a sentence, and no traceback."""
import fcntl
import os
import pathlib
import signal
import struct
import subprocess
import tempfile
import termios
import time

from katchidul_desk import orders, streams
from katchidul_desk.errors import DeskError

from .checks import COMMAND, PROGRAMS, ROOT, check, run, started

ORDER = ROOT / "examples" / "durham-clock.order"
COMMANDS = ("show", "sheet", "table", "cells", "brf", "wear", "week", "make")


def shell(line, **more):
    """A line of sh, with $K for the command and $O for an order: its status, and what it says on standard error."""
    ended = subprocess.run(["sh", "-c", line], capture_output=True, env={**os.environ, "K": str(COMMAND), "O": str(ORDER), **more},
                           check=False)
    return ended.returncode, ended.stdout, ended.stderr.decode("utf-8", "replace")


def says(what, line, status, part, **more):
    ended, _, said = shell(line, **more)
    check(what, (ended, part in said or said, "Traceback" in said), (status, True, False))


def output():
    says("closed output", "$K sheet $O >&-", 2, "standard output is closed")
    says("closed output of help", "$K --help >&-", 2, "standard output is closed")
    says("full output", "$K table $O >/dev/full", 2, "standard output can't be written: No space left on device")
    says("a broken pipe", "($K sheet $O; echo $? >&2) | true", 0, "")
    status, printed, said = shell("($K table examples/longest.order examples/longest.order; echo $? >&2) | head -n 1")
    check("a reader that leaves", (printed[:7], said in ("0\n", "141\n") or said), (b"Kampala", True))
    says("all closed", "$K sheet $O <&- >&- 2>&-", 2, "")
    says("closed output of a spool's status", "$K spool -d /tmp status >&-", 1, "standard output is closed")
    says("closed errors", "$K sheet nothing 2>&-", 2, "")
    says("full errors", "$K sheet nothing 2>/dev/full", 2, "")


def output_files():
    with tempfile.TemporaryDirectory() as folder:
        for out, part in [(folder, "Is a directory"), (folder + "/none/leeds.brf", "No such file or directory"),
                          ("/dev/full", "No space left on device"), ("a\0b", "can't be written"),
                          ("", "can't be written")]:
            status, printed, said = run("brf", ORDER, "--out", out)
            check("--out %r" % out, (status, printed, part in said or said), (2, b"", True))
        kept = pathlib.Path(folder) / "kept.brf"
        kept.write_bytes(b"old")
        run("brf", ROOT / "examples" / "cut.order", "--out", kept)
        check("a file stays when nothing is made", (kept.read_bytes(), os.listdir(folder)), (b"old", ["kept.brf"]))
        run("brf", ORDER, "--out", kept)
        check("and is replaced by a whole one", (kept.read_bytes()[:3], os.listdir(folder)), (b"#JA", ["kept.brf"]))
        check("what is read is not replaced", (run("table", ORDER, "--out", ORDER)[:2], ORDER.read_bytes()[:1]), ((2, b""), b"\1"))
        written = [(folder + "/a", b"1"), (folder + "/none/b", b"2")]
        try:
            streams.write_files(written)
        except DeskError as why:
            check("of several files none is written", (str(why).endswith("No such file or directory"), os.listdir(folder)),
                  (True, ["kept.brf"]))
        link = pathlib.Path(folder) / "link.brf"
        link.symlink_to("kept.brf")
        run("brf", ROOT / "examples" / "pole.order", "--out", link)
        check("a link leads to its file", (link.is_symlink(), kept.read_bytes().count(b"\r\n")), (True, 1))


def inputs():
    says("closed input", "$K sheet <&-", 2, "standard input is closed")
    says("closed input of make", "$K make - <&-", 2, "standard input is closed")
    says("a folder as input", "$K sheet </", 2, "standard input is a folder")
    with tempfile.TemporaryDirectory() as folder:
        named = pathlib.Path(folder) / "text"
        for data, part in [(b"", "is empty"), (b"\xff\xfet\0o\0", "UTF-16"), (b"#" * 70000, "more than 65536 bytes")]:
            named.write_bytes(data)
            for command in COMMANDS:
                status, printed, said = run(command, named)
                check("%s of %r" % (command, data[:5]), (status, printed, part in said or said), (2, b"", True))
        for command in COMMANDS:
            for path, part in [(folder, "Is a directory"), (folder + "/nothing", "No such file or directory"),
                               ("/dev/zero", "more than 65536 bytes"), ("a\0b", "can't be read"),
                               ("/dev/null", "is empty")]:
                status, printed, said = run(command, path)
                check("%s %r" % (command, path), (status, printed, part in said or said), (2, b"", True))
    check("an order too long", run("sheet", given=ORDER.read_bytes() + bytes(2000))[:2], (1, b"order refused 1 place 0\n"))


def ascii_terminals():
    """A terminal without letters outside ASCII, in messages and in what is printed."""
    for environment in ({"LC_ALL": "C"}, {"LC_ALL": "POSIX", "PYTHONUTF8": "0", "PYTHONCOERCECLOCALE": "0"}, {"PYTHONIOENCODING": "ascii"},
                        {"PYTHONIOENCODING": "latin-1"}):
        for words in (["cells", ORDER], ["make", "--tøwn", "x"]):
            status, _, said = started(*words, env={**os.environ, **environment})
            check("%s with %s" % (words, environment), (status in (0, 1, 2), "Traceback" in said), (True, False))


def messages_can_not_command_a_terminal():
    for word in ("\x1b[2Jx", "a\nkatchidul: forged", "\x07", "\u202ereversed", "\udcff"):
        for words in ([word], ["make", "--" + word, "1"], ["make", "--town", word], ["make", "--method", word], ["make", "--zone", word],
                      ["sheet", word], ["-" + word],
                      ["make", "--minutes", word + " 1"], ["make", "--place", word], ["brf", ORDER, "--out", "/nothing/" + word]):
            status, printed, said = run(*words)
            check("what is said of %r" % words[-1], all(letter.isprintable() or letter == "\n" for letter in said), True)
            check("and no forged line of %r" % words,
                  all(line.startswith("katchidul: ") and "forged" not in line[:20] for line in said.splitlines()), True)


def long_values():
    """A long value gets a short sentence, and at once."""
    began = time.process_time()
    for name in ("latitude", "place", "fajr angle", "rows", "clock", "method", "minutes", "first day", "month", "from", "to", "zone",
                 "ramadan", "town", "nothing", "9" * 300000):
        for digits in ("9" * 300000, "imsak 1" + " " * 300000, "-" * 300000, "1 " * 150000, "," * 300000):
            try:
                orders.make("%s: %s" % (name, digits))
            except DeskError as why:
                check("a short sentence for %.20s" % name, len(str(why)) < 600, True)
    check("in time", time.process_time() - began < 10, True)
    status, _, said = run("make", "-", given=b"latitude: " + b"9" * 60000)
    check("a long latitude", (status, "too long for a value" in said), (2, True))


def signals():
    """The keyboard stops the making of an order without a message, and no file is left."""
    with tempfile.TemporaryDirectory() as folder:
        run = subprocess.Popen([COMMAND, "make", "-", "--out", os.path.join(folder, "x.order")], stdin=subprocess.PIPE,
                               stderr=subprocess.PIPE)
        run.stdin.write(b"town: Leeds\n")
        run.stdin.flush()
        # When the pipe is empty the text is being read.
        while struct.unpack("i", fcntl.ioctl(run.stdin, termios.FIONREAD, bytes(4)))[0]:
            time.sleep(0.01)
        time.sleep(0.1)
        run.send_signal(signal.SIGINT)
        said = run.stderr.read()
        run.stdin.close()
        check("stopped", (run.wait(), said, os.listdir(folder)), (130, b"", []))


def printed():
    """tools/printed, which runs the installed programs: a closed input or a folder is no empty order, and a signal leaves no file."""
    sheet = os.path.join(PROGRAMS, "sheet")
    for line, status, part in [("tools/printed $S <&-", 2, "standard input is closed"),
                               ("tools/printed $S </", 2, "standard input is a folder"),
                               ("tools/printed $S <$O", 0, ""), ("tools/printed $S <examples/cut.order", 3, ""),
                               ("tools/printed $S </dev/null", 3, ""),
                               ("tools/printed $S <$O >/dev/full", 1, "No space left")]:
        says(line, "cd %s && %s" % (ROOT, line), status, part, S=sheet)
    with tempfile.TemporaryDirectory() as folder:
        for sent in (signal.SIGTERM, signal.SIGHUP, signal.SIGINT):
            run = subprocess.Popen([ROOT / "tools" / "printed", sheet], stdin=subprocess.PIPE, env={**os.environ, "TMPDIR": folder})
            for _ in range(500):
                if os.listdir(folder):
                    break
                time.sleep(0.01)
            time.sleep(0.05)
            run.send_signal(sent)
            run.stdin.close()
            check("tools/printed stopped by %s" % sent.name, (run.wait(), os.listdir(folder)), (128 + sent, []))


def terminals():
    """An order's bytes don't go to a terminal; and a terminal is not waited on for an order."""
    master, slave = os.openpty()
    for words, part in [(["make", ROOT / "examples" / "durham-clock.text"], b"give a file's name with --out"),
                        (["cells", "--plain", ORDER], b"give a file's name with --out"),
                        (["sheet"], b"sheet takes an order, a text, or options")]:
        ended = subprocess.run([COMMAND, *words], stdin=slave, stdout=slave, stderr=subprocess.PIPE, check=False)
        check("%s at a terminal" % words[0], (ended.returncode, part in ended.stderr or ended.stderr), (2, True))
    os.close(slave)
    os.close(master)


TESTS = [terminals, output, output_files, inputs, ascii_terminals, messages_can_not_command_a_terminal, long_values, signals, printed]
