# Builds what the runs need, in a folder of their own: the host, the embosser, the stopper, and the library for Python.
import ctypes
import os
import pathlib
import subprocess

from shared import ROOT, library
from shared.header import STRUCTS, declared

FLAGS = ["gcc", "-std=c11", "-Wall", "-Wextra", "-Wpedantic", "-Werror", "-O2"]


class Library:
    """The calls that the runs judge by."""

    def __init__(self, shared):
        self.loaded = declared(ctypes.CDLL(shared))
        self.known = {}

    def write_page(self, order, page, scratch):
        return self.loaded.katchidul_write_page(order, len(order), page, 0, scratch, len(scratch))

    def page(self, order, page):
        scratch = ctypes.create_string_buffer(975)
        made = self.write_page(order, page, scratch)
        return (made.rows, scratch.raw[:39 * made.rows]) if made.number == 0 else None

    def refusal(self, order):
        """An order's refusal in words, or none for a right order."""
        made = self.write_page(order, 1, ctypes.create_string_buffer(975))
        return self.sentence(made.number, made.place) if made.number else None

    def pages(self, order):
        """All pages in one go: page, rows and cells of each."""
        if order not in self.known:
            pages = []
            while (made := self.page(order, len(pages) + 1)) is not None:
                pages.append((len(pages) + 1, *made))
            self.known[order] = pages  # only now: other threads may ask
        return self.known[order]

    def town(self, order):
        read = self.loaded.katchidul_read_order(order, len(order))
        return order[read.town_at:read.town_at + read.town_length].decode()

    def dots(self, order, page):
        """The dots of the pages up to this one."""
        scratch = ctypes.create_string_buffer(975)
        return sum(self.write_page(order, at, scratch).dots for at in range(1, page + 1))

    def turns(self, pages):
        """Job and page of each turn, if the jobs 1, 2, 3, .. have these numbers of pages and all wait from the beginning."""
        queue, turns = STRUCTS["katchidul_queue"](), []
        for job, count in enumerate(pages, 1):
            queue = self.loaded.katchidul_join(queue, job, count).queue
        while (turn := self.loaded.katchidul_turn(queue)).id != 0:
            turns.append((turn.id, pages[turn.id - 1] - turn.pages))
            queue = turn.queue
        return turns

    def log(self, log, size):
        return self.loaded.katchidul_read_log(log.ljust(size, b"\0")[:size], size, len(log))

    def restart(self, log, size, count):
        return self.loaded.katchidul_restart(log.ljust(size, b"\0")[:size], size, len(log), count, ctypes.create_string_buffer(size), size)

    def sentence(self, number, place):
        words = ctypes.create_string_buffer(100)
        length = self.loaded.katchidul_write_sentence(number, place, words, 100).length
        return words.raw[:length].decode()


class Built:
    def __init__(self, folder, sanitize=False):
        self.folder = pathlib.Path(folder)
        self.archive = library.archive()
        self.library = Library(library.shared_object(folder))
        self.stopper = self.made("stopper.so", [ROOT / "tests/job/stopper.c"], "-shared", "-fPIC")
        self.flags = "-g -fsanitize=address,undefined -fno-sanitize-recover -static-libasan -static-libubsan".split() if sanitize else []
        self.host, self.embosser = self.build("plain", ROOT / "host")

    def run(self, words):
        subprocess.run(words, cwd=ROOT, check=True)

    def made(self, name, sources, *words):
        program = str(self.folder / name)
        self.run([*FLAGS, *words, *map(str, sources), "-o", program])
        return program

    def build(self, name, sources, *words):
        """A host and its stand-in for an embosser, by the host's own script."""
        made = self.folder / f"{name}.bin"
        subprocess.run([str(sources / "build"), str(made), *self.flags, *words], env={**os.environ, "LIBRARY": self.archive}, check=True)
        return str(made / "katchidul-host"), str(made / "katchidul-standin")

    def checked_embosser(self):
        return self.build("checked", ROOT / "host", "-fsanitize=address,undefined")[1]

    def objects(self):
        """The host's parts, compiled once for all hosts that differ in one part."""
        folder = self.folder / "objects"
        if not folder.exists():
            folder.mkdir()
            subprocess.run([*FLAGS, "-I", str(ROOT / "include"), "-c", *map(str, ROOT.glob("host/*.c"))], cwd=folder, check=True)
        return folder

    def edited_host(self, name, file, old, new):
        """A host with one place of its text changed; the place must be there once."""
        text = (ROOT / "host" / file).read_text()
        if text.count(old) != 1:
            raise ValueError(f"{name}: the text to change is there {text.count(old)} times in {file}")
        folder = self.folder / name.replace(" ", "-")
        folder.mkdir()
        (folder / file).write_text(text.replace(old, new))
        others = [str(part) for part in self.objects().glob("*.o") if part.stem != pathlib.Path(file).stem]
        program = str(folder / "katchidul-host")
        places = ["-I", str(ROOT / "host"), "-I", str(ROOT / "include")]
        self.run([*FLAGS, "-Wno-error", *places, str(folder / file), *others, self.archive, "-o", program])
        return program
