"""The command katchidul: finds the command that is asked for, and turns what goes wrong into a sentence and a status."""
import importlib.util
import re

from . import making, showing, streams
from .errors import DeskError, Refused, Unreadable
from .helps import help_of
from .orders import refused_lines
from .ramadan import first_days
from .version import version
from .wording import did_you_mean, quoted

# Each of these commands is a package of its own, with main(words) and its own help.
APART = {"preview": "preview", "desk": "page", "spool": "spool"}


def ramadan(words):
    if len(words) != 1 or not re.fullmatch("[0-9]{1,4}", words[0]):
        raise Unreadable("ramadan takes a year, as 1447 or 2026")
    lines = ["Ramadan %d, shift %2d: first day %s\n" % found for found in first_days(int(words[0]))]
    if not lines:
        raise Unreadable("ramadan takes an Islamic year from 1317 to 1626, or one from 1900 to 2199")
    streams.write("".join(lines).encode("ascii"))
    return 0


COMMANDS = {"make": making.make, "show": showing.show, "table": showing.table, "sheet": showing.sheet, "cells": showing.cells,
            "brf": showing.brf, "wear": showing.wear, "week": showing.week, "ramadan": ramadan}


def apart(name):
    """The package of a command. An installation may lack it."""
    package = "%s.%s" % (__package__, APART[name])
    if importlib.util.find_spec(package) is None:
        raise DeskError("katchidul %s is not part of this installation" % name)
    return importlib.import_module(package)


def run(words):
    if words and words[0] in APART:
        return apart(words[0]).main(words[1:])
    if "--version" in words[:1]:
        streams.write(("katchidul %s\n" % version()).encode("ascii"))
        return 0
    asked = words[0] if words and words[0] in COMMANDS else None
    if "--help" in words or "-h" in words or words == ["help"]:
        streams.write(streams.in_terminals_letters(help_of(asked) + "\n"))
        return 0
    if asked is None:
        said = "%s is no command%s" % (quoted(words[0]), did_you_mean(words[0], [*COMMANDS, *APART])) if words else "a command is missing"
        raise Unreadable("%s; katchidul --help lists them" % said)
    return COMMANDS[asked](words[1:])


def main(words):
    streams.start()
    try:
        return run(words)
    except Refused as why:
        for line in refused_lines(why.refusal, why.name):
            streams.say("katchidul: %s" % line)
        return why.status
    except DeskError as why:
        streams.say("katchidul: %s" % why)
        return why.status
    except streams.Ended:
        # As a shell tells of a command that a closed pipe ends.
        return 141
    except KeyboardInterrupt:
        return 130
