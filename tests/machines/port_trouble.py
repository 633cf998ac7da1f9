"""A machine that reports nothing: restarts, questions to the operator, and what goes wrong on the way to the machine."""
import os
import pty
import random
import re
import subprocess
import threading
import time

import library
from driver import Driver
from host import Host, Job, Link, Lost
from kills import Orders
from sinks import Port, Terminal

ORDER = library.order("Durham", 60)


def wait_until(true, seconds=10.0):
    end = time.time() + seconds
    while time.time() < end:
        if true():
            return True
        time.sleep(0.02)
    return False


def begin(driver, patience=10.0):
    link = Link(driver.socket, patience)
    link.begin("test-spool")
    return link


def send_page(link, lib, page, job=5, first=True):
    if first:
        link.send(b"job %d %d durham.order\n" % (job, len(ORDER)), ORDER)
    cells = lib.pages(ORDER)[page - 1]
    link.send(b"page %d %d %d\n" % (job, page, len(cells) // 39), cells)


def restart(link, job=5):
    link.send(b"restart %d\n" % job)
    return link.hear()


def with_two_pages(place, name, machine):
    """A driver that has sent pages 1 and 2 of job 5, whose host is gone."""
    driver = Driver(place.port, place.folder / name, machine)
    link = begin(driver)
    restart(link)
    for page in (1, 2):
        send_page(link, place.lib, page, first=page == 1)
        link.hear()
    link.close()
    return driver


def check_question(check, place):
    port = Port()
    driver = with_two_pages(place, "question", "127.0.0.1:%d" % port.number)
    link = begin(driver)
    check("a job that the machine never saw has count 0", restart(link, 6), ["count", "6", "0"])
    check("and there is no question about it", driver.questions(), [])
    link.send(b"restart 5\n")
    check("a question is asked", wait_until(lambda: driver.questions() == [5]), True)
    text = (driver.state / "questions" / "5").read_text()
    for words in ("Job 5", "durham.order", "Durham", "pages 1 to 2", "the last ones 1 and 2", "from 0 to 2", "answer"):
        check("the question names '%s'" % words, words in text, True)
    for wrong in ("", "x", "-1", "3", "1.0", " 1", "+1", "1x", "4294967297", "00000000001"):
        check("'%s' is no answer" % wrong, (driver.answer(5, wrong).returncode, driver.questions()), (2, [5]))
    check("there is no question about job 6", driver.answer(6, 0).returncode, 1)
    link.close()
    driver.kill()
    driver.start()
    link = begin(driver)
    link.send(b"restart 5\n")
    check("the question is open again after the driver's death", wait_until(lambda: driver.questions() == [5]), True)
    check("an answer is taken", driver.answer(5, 1).returncode, 0)
    check("the count is the operator's", link.hear(), ["count", "5", "1"])
    check("the host is told", any("waits for the operator" in said for said in link.said), True)
    check("the question is closed", driver.questions(), [])
    check("without a page meanwhile it is not asked again", restart(link), ["count", "5", "1"])
    send_page(link, place.lib, 2)
    check("page 2 goes out again", link.hear(), ["done", "5", "2"])
    check("it arrives", [len(port.arrived), port.arrived[-1]], [3, library.brf(place.lib.pages(ORDER)[1])])
    link.close()
    driver.end()
    port.end()


def check_late_answer(check, place):
    """The host's deadline passes while the operator is away: it asks again, and gets at once the answer that came meanwhile."""
    port = Port()
    driver = with_two_pages(place, "late", "127.0.0.1:%d" % port.number)
    link = begin(driver, 0.5)
    try:
        restart(link)
        check("late: no count without the operator", True, False)
    except Lost:
        link.close()
    driver.answer(5, 2)
    link = begin(driver, 2.0)
    check("late: the count at once", restart(link), ["count", "5", "2"])
    link.close()
    driver.end()
    port.end()


def check_terminal(check, place):
    """The question on the driver's own terminal."""
    port = Port()
    driver = with_two_pages(place, "terminal", "127.0.0.1:%d" % port.number)
    driver.end()
    pid, ours = pty.fork()
    if pid == 0:
        os.execv(driver.words[0], driver.words)
    seen = []
    threading.Thread(target=lambda: read_all(ours, seen), daemon=True).start()
    wait_until(lambda: any(b"ready" in some for some in seen))
    os.write(ours, b"2\n")  # before the question: no answer to it
    time.sleep(0.2)
    link = begin(driver)
    link.send(b"restart 5\n")
    check("terminal: the question", wait_until(lambda: b"waits for the operator" in b"".join(seen)), True)
    time.sleep(0.6)
    check("terminal: what was typed before is no answer", driver.questions(), [5])
    os.write(ours, b"nine\n")
    check("terminal: a word is no answer", wait_until(lambda: b"is no answer" in b"".join(seen)), True)
    os.write(ours, b"1\n")
    check("terminal: a number is", link.hear(), ["count", "5", "1"])
    link.close()
    os.kill(pid, 15)
    os.waitpid(pid, 0)
    port.end()


def read_all(file, seen):
    try:
        while some := os.read(file, 4096):
            seen.append(some)
    except OSError:
        pass


def check_away(check, place):
    """A machine that is switched off: the page waits, and nothing counts as sent."""
    port = Port()
    port.end()
    driver = Driver(place.port, place.folder / "away", "127.0.0.1:%d" % port.number)
    link = begin(driver, 15.0)
    restart(link)
    send_page(link, place.lib, 1)
    check("away: the operator is told", wait_until(lambda: "waits for the machine" in driver.said()), True)
    check("away: no record of a page", (driver.state / "jobs" / "5").exists(), False)
    link.close()
    link = begin(driver, 15.0)
    check("away: count 0 without a question", restart(link), ["count", "5", "0"])
    send_page(link, place.lib, 1)
    port.listen()
    check("away: it goes out when the machine is there", link.hear(), ["done", "5", "1"])
    check("away: once", len(port.arrived), 1)
    link.close()
    driver.end()
    port.end()


def check_reset(check, place):
    port = Port()
    port.resets = 1
    driver = Driver(place.port, place.folder / "reset", "127.0.0.1:%d" % port.number)
    link = begin(driver, 3.0)
    restart(link)
    send_page(link, place.lib, 1)
    try:
        check("reset: no page is done", link.hear(), None)
    except Lost:
        pass
    check("reset: the operator is told", "may be there in part" in driver.said(), True)
    link.patience = 15.0
    link.close()
    link = begin(driver)
    restart(link, 6)
    send_page(link, place.lib, 1, job=6)
    check("reset: and asked before a page of another job goes out", wait_until(lambda: driver.questions() == [5]), True)
    time.sleep(0.5)
    check("reset: nothing has gone out", port.arrived, [])
    driver.answer(5, 0)
    check("reset: then it does", link.hear(), ["done", "6", "1"])
    check("reset: the count", restart(link), ["count", "5", "0"])
    link.close()
    driver.end()
    port.end()


def check_stuck(check, place):
    """A device that takes nothing: the record is there before the first byte, and a restart waits for the page."""
    line = Terminal()
    line.stop()
    driver = Driver(place.port, place.folder / "stuck", line.name)
    link = begin(driver)
    restart(link)
    pages = place.lib.pages(ORDER)
    link.send(b"job 5 %d durham.order\n" % len(ORDER), ORDER)
    for page in (1, 2, 3):
        link.send(b"page 5 %d %d\n" % (page, len(pages[page - 1]) // 39), pages[page - 1])
    record = driver.state / "jobs" / "5"
    check("stuck: the record is there", wait_until(record.exists), True)
    time.sleep(0.5)
    check("stuck: it is of page 1 alone, and no byte came", (line.came, "sent 1\n" in record.read_text()), (b"", True))
    link.close()
    link = begin(driver)
    link.send(b"restart 5\n")
    check("stuck: the host is told what its count waits for", wait_until(lambda: "is on its way" in driver.said()), True)
    line.go_on()
    check("stuck: a question when the page is out", wait_until(lambda: driver.questions() == [5]), True)
    time.sleep(0.5)
    sent = int(re.search(r"sent (\d+)", (driver.state / "jobs" / "5").read_text())[1])
    check("stuck: what the record says is what came", line.came.count(b"\f"), sent + 1)
    driver.answer(5, sent)
    check("stuck: the count", link.hear(), ["count", "5", str(sent)])
    link.close()
    driver.end()
    line.end()


def check_end(check, place):
    """SIGTERM while a page is on its way: the page goes out whole."""
    line = Terminal()
    line.stop()
    driver = Driver(place.port, place.folder / "ends", line.name, "--width", "100", "--height", "100")
    link = begin(driver)
    restart(link)
    send_page(link, place.lib, 1)
    wait_until(lambda: (driver.state / "jobs" / "5").exists())
    driver.process.terminate()
    time.sleep(0.3)
    line.go_on()
    check("end: status", driver.process.wait(25), 0)
    time.sleep(0.3)
    check("end: the page is whole", line.came.count(b"\f"), 2)
    check("end: the socket is removed", driver.socket.exists(), False)
    link.close()
    line.end()


def check_names(check, place):
    for name in ("nonsense", ":9100", "host:0", "host:65536", "host:91x"):
        words = [place.port, str(place.folder / "n.socket"), str(place.folder / "n.state"), name]
        done = subprocess.run(words, capture_output=True, text=True, timeout=5)
        check("'%s' is no machine" % name, (done.returncode, "HOST:PORT" in done.stderr), (1, True))
    (place.folder / "file").write_bytes(b"")
    driver = Driver(place.port, place.folder / "file-driver", str(place.folder / "file"))
    link = begin(driver)
    restart(link)
    send_page(link, place.lib, 1)
    check("a plain file is no machine", wait_until(lambda: "this is no device" in driver.said()), True)
    link.close()
    driver.end()


def check_kills(check, place, kills=25):
    """Host and driver are killed at random; the operator answers by what is in the tray."""
    draw, port = random.Random(7), Port(0.05)
    driver = Driver(place.fast_port, place.folder / "port-kills", "127.0.0.1:%d" % port.number)
    orders = Orders(place.lib, draw)
    jobs = [Job(number, *orders.make()) for number in range(1, 13)]
    stop, host = threading.Event(), Host(driver.socket, jobs, patience=3.0)

    def operate():
        while not stop.wait(0.05):
            for number in driver.questions():
                there = {orders.named(bytes) for bytes in port.arrived}
                name, pages = jobs[number - 1].name, 0
                while (name, pages + 1) in there:
                    pages += 1
                if port.quiet(0.3):
                    driver.answer(number, pages)

    threading.Thread(target=operate, daemon=True).start()
    host.start()
    for _ in range(kills):
        time.sleep(draw.random() * 0.5)
        if draw.random() < 0.5:
            host.kill()
            host = Host(driver.socket, jobs, patience=3.0)
            host.start()
        else:
            driver.kill()
            driver.start()
    wait_until(host.over, 90)
    stop.set()
    check("port kills: all jobs are done", [(job.finished, job.refused) for job in jobs], [(len(job.pages), None) for job in jobs])
    wanted = [(job.name, page) for job in jobs for page in range(1, len(job.pages) + 1)]
    check("port kills: each page once", sorted(map(orders.named, port.arrived)), sorted(wanted))
    driver.end()
    port.end()


def run(check, place):
    for part in (check_question, check_late_answer, check_terminal, check_away, check_reset, check_stuck, check_end, check_names,
                 check_kills):
        part(check, place)
