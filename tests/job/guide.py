# docs/PRINT_ROOM.md as an operator follows it: the commands of its first page, and the host's lines that it shows.
import os
import pathlib
import re
import signal
import subprocess
import tempfile

from build import ROOT
from trial import STAMP

NEEDED = ("host", "include", "examples", "katchidul")  # what the commands name


def blocks():
    """The commands of the first page, and the lines of the host."""
    section = (ROOT / "docs" / "PRINT_ROOM.md").read_text().partition("## A first page\n")[2].partition("\n## ")[0]
    return re.findall(r"^```\n(.*?)^```$", section, re.DOTALL | re.MULTILINE)


def followed(built, commands):
    """What the commands print, one after another in a folder of their own. The stand-in that they leave at work is ended."""
    with tempfile.TemporaryDirectory(dir=built.folder) as folder:
        for name in NEEDED:
            (pathlib.Path(folder) / name).symlink_to(ROOT / name)
        with open(os.path.join(folder, "printed"), "w+") as printed:
            shell = subprocess.Popen(["sh", "-e", "-c", commands], cwd=folder, env={**os.environ, "LIBRARY": built.archive}, stdout=printed,
                                     stderr=subprocess.STDOUT, start_new_session=True)
            status = shell.wait(60)
            os.killpg(shell.pid, signal.SIGTERM)
            printed.seek(0)
            return status, printed.read()


def first_page(built):
    commands, wanted = blocks()
    status, printed = followed(built, commands)
    said = STAMP.sub("", printed)
    lines = [line.partition("...")[0] for line in STAMP.sub("", wanted).splitlines()]
    wrong = [f"not said: {line}" for line in lines if line not in said]
    wrong += [] if re.search(r"^1 +done +2/2 +durham-clock\.order +Durham$", said, re.MULTILINE) else ["the status has no job that is done"]
    return wrong + ([] if status == 0 else [f"status {status}: {printed}"])


def run(checks, built):
    checks.check("the guide's first page as written", first_page(built))
