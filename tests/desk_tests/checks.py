"""What the tests of the desk have in common: counting, and running the command."""
import os
import random
import subprocess
import sys
import tempfile
import traceback

from shared import ROOT
from shared.checks import Checks
from shared.modules import module

COMMAND = ROOT / "katchidul"
sys.path.insert(0, str(ROOT / "desk"))
PROGRAMS = os.environ.setdefault("KATCHIDUL_PROGRAMS", str(ROOT / "target" / "bin"))
check = Checks("desk")
is_long = False


def run(*words, given=b""):
    """The command's exit status, standard output and standard error, in a process that begins as a copy of this one: Python is not
    started anew, so that hundreds of runs take seconds."""
    with tempfile.TemporaryFile() as source, tempfile.TemporaryFile() as printed, tempfile.TemporaryFile() as said:
        source.write(given)
        source.seek(0)
        child = os.fork()
        if child == 0:
            for number, file in enumerate((source, printed, said)):
                os.dup2(file.fileno(), number)
            os._exit(ended(words))
        status = os.waitstatus_to_exitcode(os.waitpid(child, 0)[1])
        printed.seek(0)
        said.seek(0)
        return status, printed.read(), said.read().decode("utf-8", "replace")


def ended(words):
    from katchidul_desk import command
    try:
        return command.main([os.fspath(word) for word in words])
    except BaseException:
        traceback.print_exc()
        return 99


def started(*words, given=b"", **more):
    """The same for the command as a person starts it."""
    run = subprocess.run([COMMAND, *words], input=given, capture_output=True, check=False, **more)
    return run.returncode, run.stdout, run.stderr.decode("utf-8", "replace")


def program(name, order):
    """What a proved program itself prints."""
    return subprocess.run([os.path.join(PROGRAMS, name)], input=order, capture_output=True, check=True).stdout


def draw(seed):
    return random.Random(seed)


# The second reader of orders, written from the paper alone.
cases = module("cases", "tests", "orders", "cases.py")
