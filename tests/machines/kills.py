"""Whole jobs over CUPS while host, driver and cupsd are killed at random moments.

What is owed: every page of every order arrives, the first time in rising order; and a page that CUPS has completed is not given to CUPS
again. What CUPS does by itself is counted apart: if cupsd is killed, its backend stays at work and the next cupsd prints the job again, so
the page can arrive twice."""
import random
import re
import threading
import time

import library
from cups import ADVISED, Cups
from driver import Driver
from sinks import Port

# CUPS logs that a job is completed just before it removes the document, and then that its list of jobs has changed. If it is killed between
# the two, it has told nobody, and the next CUPS prints the job again like one that was in work. So a job is completed if both lines are
# there.
EVENT = re.compile(r'\[Job (\d+)\] (?:argv\[3\]="(katchidul [^"]*)"|(Started backend)|(Job completed\.\n.* cupsdMarkDirty)'
                   r'|(Job aborted|Aborting job))')


class Orders:
    """Orders whose pages differ in every row, so that a page tells whose it is."""

    def __init__(self, lib, draw):
        self.lib, self.draw, self.pages, self.of_page = lib, draw, {}, {}

    def make(self):
        number = len(self.pages) + 1
        name = "order-%d" % number
        made = library.order("Town %d" % number, self.draw.randint(1, 75), longitude=-100 + 0.3 * number, latitude=20 + 0.02 * number)
        pages = self.lib.pages(made)
        self.pages[name] = pages
        for at, cells in enumerate(pages, 1):
            assert self.of_page.setdefault(library.brf(cells), (name, at)) == (name, at)
        return name, made, pages

    def named(self, bytes):
        """The page that arrived, without its cover."""
        return self.of_page.get(bytes.split(b"\f")[-2] + b"\f")


class Operator(threading.Thread):
    """Answers the driver's questions by what is in the tray, when the machine is quiet."""

    def __init__(self, driver, port, orders, room):
        super().__init__(daemon=True)
        self.driver, self.port, self.orders, self.room, self.over, self.answers = driver, port, orders, room, False, 0

    def run(self):
        asked = {}
        while not self.over:
            time.sleep(0.05)
            for number in self.driver.questions():
                text = (self.driver.state / "questions" / str(number)).read_text() if self.driver.state.exists() else ""
                if text and asked.get(number) != text and self.port.quiet(0.5):
                    asked[number] = text
                    name = re.search(r"\((order-\d+)", text)[1]
                    self.answers += self.driver.answer(number, self.finished(name)).returncode == 0
            asked = {number: text for number, text in asked.items() if number in self.driver.questions()}

    def finished(self, name):
        there = {self.orders.named(bytes) for bytes in self.port.arrived}
        pages = 0
        while (name, pages + 1) in there:
            pages += 1
        return pages


class Run:
    def __init__(self, folder, lib, program, room, seed, more=ADVISED):
        self.draw = random.Random(seed)
        self.cups, self.port = Cups(folder / "cups", more), Port(0.05)
        self.cups.add_queue("braille", "socket://127.0.0.1:%d" % self.port.number)
        self.driver = Driver(program, folder / "driver", "braille", environment=self.cups.environment)
        self.orders = Orders(lib, self.draw)
        self.room = room(self.driver.socket, folder)
        self.operator = Operator(self.driver, self.port, self.orders, self.room)
        self.killed = {"host": 0, "driver": 0, "cupsd": 0, "cupsd in order": 0}

    def kill_one(self):
        """One in ten times cupsd is stopped by SIGTERM, as at a restart of the service."""
        what = self.draw.choice(["host", "driver", "cupsd"])
        thing = {"host": self.room, "driver": self.driver, "cupsd": self.cups}[what]
        if what == "cupsd" and self.draw.random() < 0.1:
            what = "cupsd in order"
            thing.end()
        else:
            thing.kill()
        time.sleep(self.draw.choice([0, 0, 0.05, 0.3]))
        thing.start()
        self.killed[what] += 1

    def go(self, kills):
        self.operator.start()
        for _ in range(kills):
            while self.room.waiting() < 3:
                self.room.submit(*self.orders.make())
            time.sleep(self.draw.random() * 0.8)
            self.kill_one()
        end = time.time() + 300
        while self.room.waiting() and time.time() < end:
            time.sleep(0.1)
        self.room.end()
        time.sleep(0.5)
        self.operator.over = True

    def end(self):
        self.driver.end()
        self.cups.end()
        self.port.end()

    # ---- what is owed

    def tray(self):
        """How often each page arrived, and the order of the first times."""
        count, first = {}, []
        for bytes in self.port.arrived:
            page = self.orders.named(bytes)
            count[page] = count.get(page, 0) + 1
            if count[page] == 1:
                first.append(page)
        return count, first

    def in_cups(self):
        """By CUPS' own log: pages that were given to CUPS again after CUPS had completed them, pages that CUPS repeated by itself after it
        had completed them, and jobs that it began more than once."""
        title, completed, begun = {}, {}, {}
        again = repeated = restarted = 0
        for number, name, starts, is_completed, _ in EVENT.findall(self.cups.log()):
            if name:
                title[number] = name
            elif starts and number in title:
                key = (number, title[number])
                begun[key] = begun.get(key, 0) + 1
                restarted += begun[key] > 1
                before = completed.get(title[number], set())
                again += bool(before - {number})
                repeated += number in before
            elif is_completed and number in title:
                completed.setdefault(title[number], set()).add(number)
        return again, repeated, restarted

    def report(self, check):
        count, first = self.tray()
        missing = [(name, at) for name, pages in self.orders.pages.items() for at in range(1, len(pages) + 1) if (name, at) not in count]
        last, late = {}, []
        for name, at in (page for page in first if page):
            if at != last.get(name, 0) + 1:
                late.append((name, at))
            last[name] = at
        again, repeated, restarted = self.in_cups()
        check("kills: all orders are done", (self.room.waiting(), self.room.held()), (0, []))
        check("kills: pages that did not arrive", missing, [])
        check("kills: pages out of order", late, [])
        check("kills: what arrived is a page", count.get(None, 0), 0)
        check("kills: pages given to CUPS again after CUPS had completed them", again, 0)
        check("kills: completed pages that CUPS repeated", repeated, 0)
        twice = sum(times - 1 for times in count.values())
        print("kills: %d (%s), orders %d, pages %d" % (
            sum(self.killed.values()), ", ".join("%s %d" % pair for pair in self.killed.items()), len(self.orders.pages),
            sum(map(len, self.orders.pages.values()))))
        print("kills: jobs that CUPS began again %d, pages that arrived twice %d, questions that the operator answered %d" % (
            restarted, twice, self.operator.answers), flush=True)
        check("kills: pages twice that no CUPS began again", twice <= restarted, True)


def run(check, place, kills, seed):
    import rooms
    rooms.Whole.program = place.host
    folder = place.folder / "kills"
    folder.mkdir()
    one = Run(folder, place.lib, place.fast_cups, rooms.Whole if place.host else rooms.Small, seed)
    try:
        one.go(kills)
        one.report(check)
    finally:
        one.end()
