"""A host that says what it should not: the link is closed, nothing reaches the machine, and the next host is served."""
import random
import time

import library
from driver import Driver
from host import Link, Lost
from port_trouble import ORDER, begin, restart, send_page, wait_until
from sinks import Port

JOB = b"job 5 %d durham.order\n" % len(ORDER) + ORDER


def closes(link, seconds=4.0):
    """Whether the driver closes the link. It may say something before that."""
    link.patience = seconds
    try:
        while True:
            link.hear()
    except Lost as why:
        return "timed out" not in str(why)


def first_lines():
    yield from (b"\n", b"spool\n", b"spool \n", b"spool a b\n", b"spool " + b"a" * 65 + b"\n", b"spool a/b\n", b"SPOOL a\n", b" spool a\n",
                b"spool a\r\n", b"restart 1\n", b"job 1 1 a\n1", b"\0" * 10, b"x" * 256, b"spool test-spool\0\n", b"\xff\xfe\n")


def later_lines(page):
    numbers = (b"", b"0", b"65536", b"-1", b"+1", b" 1", b"1 ", b"4294967297", b"00000000001", b"1x", b"0x1", b"1.0")
    yield from (b"restart " + number + b"\n" for number in numbers)
    yield from (b"spool test-spool\n", b"stop\n", b"page 5 1 25 1\n", b"count 5 1\n", b"x" * 300)
    yield from (b"job 5 %s durham.order\n" % number for number in (b"0", b"1025", b"-1", b"4294967297"))
    yield from (b"job 5 3 \nabc", b"job 5 3 " + b"a" * 101 + b"\nabc", b"job 5 3 a b\nabc", b"job 5 3 a\nabc", b"job 5 4 a\n\1\0\0\0")
    yield b"page 5 1 25\n" + page  # before its restart
    yield b"restart 5\npage 5 1 25\n" + page  # before its job
    for line in (b"page 5 2 25", b"page 5 1 24", b"page 5 0 25", b"page 5 17 25", b"page 5 1 26", b"page 5 1 0", b"page 0 1 25"):
        yield b"restart 5\n" + JOB + line + b"\n" + page
    yield b"restart 5\n" + JOB + b"page 5 1 25\n" + page[:-1] + b"\x40"


def run(check, place):
    port = Port()
    driver = Driver(place.port, place.folder / "hostile", "127.0.0.1:%d" % port.number)
    page = place.lib.pages(ORDER)[0]
    for line in first_lines():
        link = Link(driver.socket)
        link.send(line)
        check("closed after %r" % line[:40], closes(link), True)
    begin(driver).close()
    for line in later_lines(page):
        link = begin(driver)
        link.send(line)
        check("closed after %r" % line[:60], closes(link), True)
    link = Link(driver.socket)
    check("another spool: it says whose it is", link.begin("other"), ["serves", "test-spool"])
    link.send(b"restart 5\n")
    check("another spool: nothing else", closes(link), True)
    for part in (b"", b"spo", b"spool test-spool\npage 5 1 25\n" + page[:100]):
        link, begun = Link(driver.socket), time.time()
        link.send(part)
        check("closed in time after %r" % part[:30], (closes(link, 6.0), time.time() - begun < 5), (True, True))
    check_silent(check, driver)
    check_noise(driver)
    check("nothing reached the machine", (port.arrived, port.cut), ([], []))
    check("the driver lives", driver.process.poll(), None)
    check_second(check, place, driver)
    check("the page of a good host arrives", len(port.arrived), 1)
    driver.end()
    port.end()


def check_silent(check, driver):
    """A host that asks again and again and reads no answer does not stop the driver."""
    link = begin(driver)
    link.socket.setblocking(False)
    try:
        for _ in range(200000):
            link.socket.send(b"restart 9\n")
    except OSError:
        pass
    time.sleep(0.5)
    link.socket.close()
    other = begin(driver, 5.0)
    check("the driver is free again", restart(other, 9), ["count", "9", "0"])
    other.close()


def check_noise(driver):
    draw = random.Random(3)
    words = [b"spool", b"restart", b"job", b"page", b"test-spool", b"5", b"1", b"25", b"0", b"65535", b" ", b"\n", b"\0", b"%", b"\xff",
             ORDER]
    for _ in range(150):
        link = Link(driver.socket)
        link.send(b"spool test-spool\n" if draw.random() < 0.7 else b"")
        try:
            link.send(b" ".join(draw.choice(words) for _ in range(draw.randint(1, 30))) + draw.choice([b"", b"\n"]))
        except Lost:
            pass
        link.close()


def check_second(check, place, driver):
    """A second host waits until the first is gone."""
    first = begin(driver)
    restart(first)
    second = Link(driver.socket, 1.0)
    try:
        check("a second host is not heard", second.begin("test-spool"), None)
    except Lost:
        pass
    send_page(first, place.lib, 1)
    check("the first one is", first.hear(), ["done", "5", "1"])
    first.close()
    second.patience = 5.0
    check("then the second", second.hear(), ["serves", "test-spool"])
    second.close()
