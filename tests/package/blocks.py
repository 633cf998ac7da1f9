#!/usr/bin/env python3
"""Runs the blocks of a document, one after another, in the current folder: blocks.py DOCUMENT

A block of `sh` is run. A block without a language is what the one before it printed. Any other block is a file, which its first line names.
The last line is 'blocks: N checks, M failed'."""
import pathlib
import re
import subprocess
import sys

NAMED = re.compile(r"(?:/\*|//|#) ([\w./]+)")
checks = failed = 0


def check(what, right, said):
    global checks, failed
    checks, failed = checks + 1, failed + (not right)
    if not right:
        print(f"blocks: failed: {what}\n{said}")


def main(document):
    printed = ""
    for language, text in re.findall(r"^```(\w*)\n(.*?)^```$", pathlib.Path(document).read_text(), re.DOTALL | re.MULTILINE):
        first = text.splitlines()[0]
        if language == "sh":
            ended = subprocess.run(["sh", "-e"], input=text, capture_output=True, text=True)
            printed = ended.stdout
            check(first, ended.returncode == 0, ended.stderr)
        elif language == "":
            check("what is printed: " + first, printed == text, printed)
        else:
            file = pathlib.Path(NAMED.match(first)[1])
            file.parent.mkdir(parents=True, exist_ok=True)
            file.write_text(text)
    print(f"blocks: {checks} checks, {failed} failed")
    return failed != 0


sys.exit(main(sys.argv[1]))
