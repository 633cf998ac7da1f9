"""What goes wrong in CUPS: each is told to the operator, and no page counts that CUPS has not completed."""
import re
import signal
import subprocess
import time

import library
from cups import ADVISED, Cups
from driver import Driver
from host import Lost
from port_trouble import ORDER, begin, restart, send_page, wait_until
from sinks import Port


class Room:
    """A cupsd with the queue `braille`, and a driver for it."""

    def __init__(self, place, name, more=ADVISED, policy="stop-printer", options=(), query=""):
        self.port = Port()
        self.cups = Cups(place.folder / (name + "-cups"), more)
        self.cups.add_queue("braille", "socket://127.0.0.1:%d%s" % (self.port.number, query), policy)
        self.driver = Driver(place.cups, place.folder / name, "braille", *options, environment=self.cups.environment)
        self.lib = place.lib

    def begin_page(self, page=1, patience=20.0):
        """A link on which a page was sent."""
        link = begin(self.driver, patience)
        restart(link)
        send_page(link, self.lib, page)
        return link

    def told(self, words, seconds=10.0):
        return wait_until(lambda: words in self.driver.said(), seconds)

    def last_job(self):
        """Waits until the driver's record has a CUPS job, and returns the number of the newest."""
        wait_until(lambda: re.search(r"cups [1-9]", self.record()))
        return re.search(r"cups (\d+)", self.record())[1]

    def record(self):
        path = self.driver.state / "jobs" / "5"
        return path.read_text() if path.exists() else ""

    def is_cancelled(self, number):
        return '[Job %s] Canceled by "katchidul"' % number in self.cups.log()

    def keep_busy(self):
        """Somebody else's job is at the queue's front, and its machine takes nothing: all other jobs wait."""
        self.port.stuck = True
        words = ["lp", "-d", "braille", "-o", "raw", "-U", "someone"]
        subprocess.run(words, input=b"else\f", env=self.cups.environment, capture_output=True)
        wait_until(lambda: '"someone"' in self.cups.log())

    def let_go(self):
        self.port.stuck = False

    def end(self):
        self.driver.end()
        self.cups.end()
        self.port.end()


def no_answer(check, what, link, seconds=1.0):
    link.patience = seconds
    try:
        check(what, link.hear(), None)
    except Lost:
        check(what, True, True)


def check_stopped(check, place):
    room = Room(place, "stopped")
    room.cups.ask("cupsdisable", "braille")
    link = room.begin_page()
    check("stopped queue: told", room.told("is stopped"), True)
    check("stopped queue: CUPS is given no page", "Create-Job" in room.cups.log(), False)
    room.cups.ask("cupsenable", "braille")
    check("started queue: the page goes out", link.hear(), ["done", "5", "1"])
    check("stopped queue: the host was told", any("is stopped" in said for said in link.said), True)
    room.keep_busy()
    send_page(link, place.lib, 2, first=False)
    number = room.last_job()
    room.cups.ask("cupsdisable", "braille")
    check("a queue that is stopped behind a page: told", room.told("page 2 of job 5 waits"), True)
    room.cups.ask("lp", "-i", number, "-H", "hold", "-U", "katchidul")
    check("held: told", room.told("is held in CUPS"), True)
    room.cups.ask("cupsenable", "braille")
    room.let_go()
    no_answer(check, "held: not counted", link)
    check("held: the host was told", any("is held" in said for said in link.said), True)
    link.close()
    room.cups.ask("lp", "-i", number, "-H", "resume", "-U", "katchidul")
    check("released: it arrives", wait_until(lambda: library.brf(place.lib.pages(ORDER)[1]) in room.port.arrived), True)
    link = begin(room.driver)
    check("released: counted, though no host was there", restart(link), ["count", "5", "2"])
    link.close()
    room.end()


def check_cancelled(check, place):
    room = Room(place, "cancelled")
    room.keep_busy()
    link = room.begin_page()
    room.cups.ask("cancel", "-U", "root", "braille-%s" % room.last_job(), fails=True)
    room.cups.ask("cancel", "-U", "katchidul", "braille-%s" % room.last_job(), fails=True)
    check("cancelled by someone else: told", room.told("was cancelled"), True)
    send_page(link, place.lib, 2, first=False)
    no_answer(check, "cancelled by someone else: not counted, and no later page goes out", link, 0.7)
    check("cancelled by someone else: the record is still of page 1", "sent 1\n" in room.record(), True)
    link.close()
    room.let_go()
    link = room.begin_page()
    check("cancelled by someone else: the page goes out again", link.hear(), ["done", "5", "1"])
    check("cancelled by someone else: once, beside the other's", len(room.port.arrived), 2)
    link.close()
    room.end()


def check_aborted(check, place):
    room = Room(place, "aborted", policy="abort-job", query="/?contimeout=1")
    room.port.end()
    link = room.begin_page()
    check("aborted: told", room.told("was aborted by CUPS", 20), True)
    no_answer(check, "aborted: not counted", link)
    link.close()
    link = begin(room.driver)
    check("aborted: count 0, without a question", (restart(link), room.driver.questions()), (["count", "5", "0"], []))
    room.port.listen()
    send_page(link, place.lib, 1)
    check("aborted: the page goes out again", link.hear(), ["done", "5", "1"])
    link.close()
    room.end()


def check_not_accepting(check, place):
    room = Room(place, "rejects")
    room.cups.ask("cupsreject", "braille")
    link = room.begin_page()
    check("a queue that takes no jobs: told", room.told("CUPS does not take it"), True)
    room.cups.ask("cupsaccept", "braille")
    check("a queue that takes jobs again: the page goes out", link.hear(), ["done", "5", "1"])
    link.close()
    room.end()


def check_restart(check, place):
    """A restart cancels a page that waits at once, and a page that is being printed after its time has passed."""
    room = Room(place, "restarts", options=("--finish", "2"))
    room.keep_busy()
    link = room.begin_page()
    number = room.last_job()
    link.close()
    link = begin(room.driver, 5.0)
    check("restart: a page that waits is cancelled", (restart(link), room.is_cancelled(number)), (["count", "5", "0"], True))
    room.let_go()
    wait_until(lambda: len(room.port.arrived) == 1)
    room.port.stuck = True
    send_page(link, place.lib, 1)
    check("restart: CUPS prints", wait_until(lambda: room.cups.log().count("Started backend") == 2), True)
    link.close()
    begun = time.time()
    link = begin(room.driver, 20.0)
    check("restart: a page that is printed is cancelled after its time", restart(link), ["count", "5", "0"])
    check("restart: not before", time.time() - begun >= 2, True)
    check("restart: nothing prints any more", "Stopping" in room.cups.log() or "Job canceled" in room.cups.log(), True)
    room.port.stuck = False
    time.sleep(0.5)
    room.port.arrived.clear()
    room.port.pause = 1.0
    send_page(link, place.lib, 1)
    wait_until(lambda: len(room.port.arrived) == 1)
    link.close()
    link = begin(room.driver)
    check("restart: a page that is printed in time is counted", restart(link), ["count", "5", "1"])
    check("restart: and printed once", len(room.port.arrived), 1)
    link.close()
    room.end()


def check_history(check, place):
    """CUPS forgets what it has completed, or the driver forgets its state; never both."""
    room = Room(place, "history")
    link = room.begin_page()
    link.hear()
    send_page(link, place.lib, 2, first=False)
    link.hear()
    link.close()
    room.cups.ask("cancel", "-a", "-x", "-U", "katchidul", "braille")
    check("history: CUPS has forgotten", room.cups.ask("lpstat", "-W", "all", "-o"), "")
    room.driver.kill()
    room.driver.start()
    link = begin(room.driver)
    check("history: the driver has not", restart(link), ["count", "5", "2"])
    send_page(link, place.lib, 3)
    link.hear()
    link.close()
    room.driver.kill()
    subprocess.run(["rm", "-r", str(room.driver.state)], check=True)
    room.driver.start()
    link = begin(room.driver)
    check("history: without its state it counts by CUPS, also when CUPS knows the last page alone", restart(link), ["count", "5", "3"])
    link.close()
    room.end()


def check_forgotten(check, place):
    """CUPS forgets a page that it was given: the operator is asked."""
    room = Room(place, "forgotten")
    room.keep_busy()
    link = room.begin_page()
    number = room.last_job()
    link.close()
    room.driver.kill()
    room.cups.ask("cancel", "-a", "-x", "-U", "katchidul", "braille")
    room.driver.start()
    link = begin(room.driver)
    link.send(b"restart 5\n")
    check("forgotten: a question", wait_until(lambda: room.driver.questions() == [5]), True)
    text = (room.driver.state / "questions" / "5").read_text()
    names = ("durham.order", "Durham", "page 1", "from 0 to 1", "braille")
    check("forgotten: what it names", [words for words in names if words not in text], [])
    check("forgotten: 2 is no answer", room.driver.answer(5, 2).returncode, 2)
    check("forgotten: 0 is", room.driver.answer(5, 0).returncode, 0)
    check("forgotten: the count", link.hear(), ["count", "5", "0"])
    link.close()
    room.end()


def check_killed_at_completion(check, place):
    """cupsd is killed when it has completed a page but not noted it on the disk: it aborts the job later, and the driver asks."""
    room = Room(place, "unsaved")
    link = room.begin_page()
    wait_until(lambda: "Started backend" in room.cups.log())
    room.driver.process.send_signal(signal.SIGSTOP)
    done = wait_until(lambda: "Job completed" in room.cups.log())
    room.cups.kill()
    room.cups.start()
    link.close()
    room.driver.process.send_signal(signal.SIGCONT)
    check("killed at completion: CUPS had completed the page", done, True)
    link = begin(room.driver)
    link.send(b"restart 5\n")
    asked = wait_until(lambda: room.driver.questions() == [5], 5)
    if asked:
        room.driver.answer(5, len(room.port.arrived))
    check("killed at completion: the page counts", link.hear(), ["count", "5", "1"])
    check("killed at completion: CUPS did not repeat it", len(room.port.arrived), 1)
    link.close()
    room.end()


def check_ended_in_order(check, place):
    """CUPS is stopped by SIGTERM while it prints a page, and started again: before the machine is connected, while it finishes, and with a
    new driver."""
    room = Room(place, "in-order", options=("--finish", "5"))
    link = ended_while_it_finishes(check, room, ended_before_it_connects(check, room))
    ended_with_the_driver(check, room, link)
    room.end()


def ended_before_it_connects(check, room):
    room.port.end()
    link = room.begin_page()
    wait_until(lambda: "Connecting to printer" in room.cups.log())
    room.cups.end()
    room.cups.start()
    room.port.listen()
    check("in order: CUPS prints what it had not sent", link.hear(), ["done", "5", "1"])
    check("in order: once", len(room.port.arrived), 1)
    return link


def ended_while_it_finishes(check, room, link):
    room.port.pause = 1.5
    before = room.cups.log().count("cups-waiting-for-job-completed")
    send_page(link, room.lib, 2, first=False)
    wait_until(lambda: room.cups.log().count("cups-waiting-for-job-completed") > before and "sent 2" in room.record())
    time.sleep(0.4)
    room.cups.end()
    room.cups.start()
    check("in order: the operator is told of a page that CUPS was finishing", room.told("was in work when CUPS ended"), True)
    link.close()
    link = begin(room.driver)
    link.send(b"restart 5\n")
    check("in order: and asked", wait_until(lambda: room.driver.questions() == [5]), True)
    room.driver.answer(5, 2)
    check("in order: the count", link.hear(), ["count", "5", "2"])
    room.cups.end()
    room.cups.start()
    time.sleep(0.5)
    check("in order: the next CUPS does not print it", len(room.port.arrived), 2)
    return link


def ended_with_the_driver(check, room, link):
    send_page(link, room.lib, 3)
    wait_until(lambda: len(room.port.arrived) == 3)
    room.driver.kill()
    room.cups.end()
    room.cups.start()
    room.driver.start()
    link = begin(room.driver)
    link.send(b"restart 5\n")
    # CUPS prints the page again; or it saw that all was sent, and does not know whether it is finished.
    wait_until(lambda: room.driver.questions() == [5] or len(room.port.arrived) == 4)
    room.driver.answer(5, 3)
    check("in order: the count of a new driver", link.hear(), ["count", "5", "3"])
    begun = len(re.findall(r"\[Job \d+\] Started backend", room.cups.log()))
    check("in order: no page that CUPS did not begin again is there twice", len(room.port.arrived) <= begun, True)
    link.close()


def check_cups_away(check, place):
    room = Room(place, "away-cups")
    room.cups.kill()
    link = begin(room.driver)
    link.send(b"restart 5\n")
    check("CUPS is away: told", room.told("waits for CUPS"), True)
    room.cups.start()
    check("CUPS is back: the count", link.hear(), ["count", "5", "0"])
    room.cups.process.send_signal(signal.SIGSTOP)
    send_page(link, place.lib, 1)
    check("CUPS hangs: told", room.told("CUPS does not take it", 30), True)
    room.cups.process.send_signal(signal.SIGCONT)
    check("CUPS goes on: the page is done", link.hear(), ["done", "5", "1"])
    check("CUPS goes on: the page arrived once", len(room.port.arrived), 1)
    link.close()
    room.end()


def check_unsent(check, place):
    """CUPS makes the job but refuses the document: nothing is printed, and nothing waits."""
    room = Room(place, "unsent", options=("--format", "application/x-nothing"))
    link = room.begin_page()
    check("a document that CUPS refuses: told", room.told("CUPS did not say that it has page 1"), True)
    check("a document that CUPS refuses: its job is cancelled", room.told("was cancelled"), True)
    link.close()
    link = begin(room.driver)
    check("a document that CUPS refuses: count 0", restart(link), ["count", "5", "0"])
    link.close()
    room.end()


def check_start(check, place):
    room = Room(place, "starts", policy="retry-job")
    check("a queue that repeats pages by itself: told", room.told("may print a page again by itself"), True)
    words = [str(place.cups), str(place.folder / "x.socket"), str(place.folder / "x.state"), "no-such-queue"]
    done = subprocess.run(words, env=room.cups.environment, capture_output=True, text=True, timeout=20)
    check("no such queue", (done.returncode, "no-such-queue" in done.stderr), (1, True))
    words = [str(place.cups), str(place.folder / "x.socket"), str(room.driver.state), "braille"]
    done = subprocess.run(words, env=room.cups.environment, capture_output=True, text=True, timeout=20)
    check("two drivers in one folder", (done.returncode, "another driver" in done.stderr), (1, True))
    words = [str(place.cups), str(room.driver.socket), str(place.folder / "x.state"), "braille"]
    done = subprocess.run(words, env=room.cups.environment, capture_output=True, text=True, timeout=20)
    check("two drivers at one socket", (done.returncode, "another driver" in done.stderr), (1, True))
    room.end()


def run(check, place):
    for part in (check_stopped, check_cancelled, check_aborted, check_not_accepting, check_restart, check_history, check_forgotten,
                 check_killed_at_completion, check_ended_in_order, check_cups_away, check_unsent, check_start):
        part(check, place)
