"""katchidul desk: the page for the clerk, on this computer alone."""
import os
import pathlib
import signal

from .. import programs, streams
from ..errors import DeskError, Unreadable
from .routes import Page
from .server import Server

PORT = 8040
HELP = """katchidul desk: a page for the browser of this computer, to make, check and print orders.

    katchidul desk [--port N] [--folder FOLDER] [--spool SPOOL]

It prints the page's address and serves the page until Ctrl-C. Only this computer can open it.

  --port N          the port, %d if left out; 0 takes one that is free
  --folder FOLDER   the folder whose texts and orders the page can open; the current one if left out
  --spool SPOOL     the print room's spool; without it nothing can be printed from the page

Exit status: 0 ended by Ctrl-C; 2 the page can't be served, and a line says why.""" % PORT


def options(words):
    """The values of --port, --folder and --spool, from --name value or --name=value."""
    given, words = {"port": str(PORT), "folder": ".", "spool": None}, list(words)
    while words:
        name, equals, value = words.pop(0).partition("=")
        if name[2:] not in given or not name.startswith("--"):
            raise Unreadable("desk takes --port N, --folder FOLDER and --spool SPOOL; katchidul desk --help says more")
        if not equals:
            if not words:
                raise Unreadable("%s lacks its value" % name)
            value = words.pop(0)
        given[name[2:]] = value
    return given


def port_of(text):
    if not (text.isascii() and text.isdigit() and len(text) <= 5 and int(text) <= 65535):
        raise Unreadable("a port is a number from 0 to 65535")
    return int(text)


def folder_of(text, what):
    if not os.path.isdir(text):
        raise Unreadable("there is no folder %s for the %s" % (text, what))
    return pathlib.Path(text).absolute()


def server(words):
    """The server of the command's words, not yet serving."""
    given = options(words)
    port, folder = port_of(given["port"]), folder_of(given["folder"], "texts and orders")
    spool = folder_of(given["spool"], "spool") if given["spool"] is not None else None
    for name in ("sheet", "cells"):
        # A first proof takes minutes, so it is done before the page is served and not at its first answer.
        programs.find(name)
    try:
        return Server(Page(folder, spool), port)
    except OSError as why:
        raise DeskError("port %d can't be used: %s; choose another by --port" % (port, why.strerror)) from None


def stop(*_):
    raise KeyboardInterrupt


def main(words):
    if "--help" in words or "-h" in words:
        streams.write(streams.in_terminals_letters(HELP + "\n"))
        return 0
    serving = server(words)
    signal.signal(signal.SIGTERM, stop)
    with serving:
        streams.write(b"The desk is at http://127.0.0.1:%d/ in the browser of this computer. Ctrl-C ends it.\n" % serving.server_port)
        try:
            serving.serve_forever()
        except KeyboardInterrupt:
            streams.say("The desk has ended.")
    return 0
