"""The library that is tested: its archive, and a shared object that Python can load."""
import ctypes
import os
import subprocess
import sys
import tempfile

from . import ROOT

# What names an archive that is built already.
NAMED_BY = {"katchidul": "LIBRARY", "probes": "PROBES"}


def run(*command):
    """Runs a command, or ends the test with a sentence."""
    try:
        status = subprocess.run(command, cwd=ROOT).returncode
    except FileNotFoundError:
        sys.exit("%s is not on the PATH, and this test needs it" % command[0])
    if status != 0:
        sys.exit("%s ended with status %d: this test has no library to call" % (" ".join(command[:3]), status))


def archive(crate="katchidul"):
    """The path of a crate's archive. It is proved and built first if no variable names one."""
    named = os.environ.get(NAMED_BY[crate])
    if not named:
        run("tools/build", crate)
        named = "target/staticlib/lib%s.a" % crate
    if not (ROOT / named).is_file():
        sys.exit("%s is not there; tools/build %s builds target/staticlib/lib%s.a" % (named, crate, crate))
    return str(ROOT / named)


def shared_object(folder, crate="katchidul"):
    """The path of a shared object of the crate's archive, made in a folder."""
    made = os.path.join(folder, "lib%s.so" % crate)
    run("gcc", "-shared", "-o", made, "-Wl,--whole-archive", archive(crate), "-Wl,--no-whole-archive")
    return made


def load(crate):
    """The crate's archive, loaded into this process."""
    with tempfile.TemporaryDirectory() as folder:
        return ctypes.CDLL(shared_object(folder, crate))
