"""The words after a command: files, options with a value, flags."""
import os
from typing import List, NamedTuple, Optional, Set, Tuple

from .errors import Unreadable
from .wording import quoted

FLAGS = {"anyway", "plain"}


class Arguments(NamedTuple):
    """`options` are the order's fields, as (name, value); `out` is the file to write, None for standard output."""
    files: List[str]
    options: List[Tuple[str, str]]
    flags: Set[str]
    out: Optional[str]


def parse(command, words, flags=()):
    """--name value or --name=value is an option; after -- every word is a file."""
    files, options, given, out, words = [], [], set(), None, list(words)
    while words:
        word = words.pop(0)
        if word == "--":
            files += words
            break
        if not word.startswith("-") or word == "-":
            files.append(word)
            continue
        if not word.startswith("--"):
            raise Unreadable("%s is no option of katchidul %s; a file of that name is ./%s" % (quoted(word), command, word[:40]))
        name, equals, value = word[2:].partition("=")
        if name in FLAGS:
            given.add(flag(command, name, equals, flags))
            continue
        if not equals and (not words or words[0].startswith("--")):
            raise Unreadable("%s lacks its value" % quoted(word))
        value = value if equals else words.pop(0)
        if name == "out":
            out = value
        else:
            options.append((name, value))
    if out is not None and any(is_same(file, out) for file in files):
        raise Unreadable("--out %s is what is read, and would be lost; give another name" % quoted(out))
    return Arguments(files, options, given, out)


def is_same(file, out):
    try:
        return os.path.samefile(file, out)
    except (OSError, ValueError):
        return False


def flag(command, name, equals, flags):
    if equals:
        raise Unreadable("--%s takes no value" % name)
    if name not in flags:
        raise Unreadable("katchidul %s takes no --%s" % (command, name))
    return name
