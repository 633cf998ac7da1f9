"""Whole jobs over each kind of machine, without accidents: every page once, in order, its rows as the library writes them."""
import re
import time

import library
from cups import Cups, Printer
from driver import Driver
from host import Host, Job
from sinks import Port, Terminal


def jobs_of(lib):
    texts = [("durham.order", library.order("Durham", 60)), ("leeds.order", library.order("Leeds", 30, longitude=-1.55)),
             ("a%20b.order", library.order("A town, with 40 bytes of it in its name", 1, clock=-210, longitude=5.0))]
    return [Job(number, name, order, lib.pages(order)) for number, (name, order) in enumerate(texts, 1)]


def run_host(driver, jobs, seconds=60):
    host = Host(driver.socket, jobs)
    host.start()
    host.join(seconds)
    return host


def compare(check, what, jobs, arrived):
    """`arrived` is a list of the bytes of pages, each with its cover if it has one."""
    bodies = [bytes.split(b"\f")[-2] + b"\f" for bytes in arrived]
    for job in jobs:
        wanted = [library.brf(cells) for cells in job.pages]
        check("%s: pages of job %d, in order" % (what, job.number), [body for body in bodies if body in wanted], wanted)
        check("%s: job %d is done" % (what, job.number), (job.finished, job.refused), (len(job.pages), None))
    check("%s: nothing else" % what, len(bodies), sum(len(job.pages) for job in jobs))
    check("%s: a cover before the first page of each job alone" % what, sum(bytes.count(b"\f") - 1 for bytes in arrived), len(jobs))


def over_cups(check, place):
    cups, port = Cups(place.folder / "cups-socket"), Port(0.05)
    cups.add_queue("braille", "socket://127.0.0.1:%d" % port.number)
    driver, jobs = Driver(place.cups, place.folder / "whole-cups", "braille", environment=cups.environment), jobs_of(place.lib)
    run_host(driver, jobs)
    compare(check, "CUPS", jobs, port.arrived)
    titles = [line.split('argv[3]="')[1][:-1] for line in cups.log().splitlines() if 'argv[3]="' in line]
    check("CUPS: a job's title names spool, job and page", sorted(titles), sorted(
        "katchidul test-spool job %d page %d" % (job.number, page) for job in jobs for page in range(1, len(job.pages) + 1)))
    check("CUPS: the driver ends with status 0", driver.end(), 0)
    cups.end()
    port.end()


def over_ipp(check, place):
    """One job of two pages: ippeveprinter takes some ten seconds a page, as an embosser does."""
    cups = Cups(place.folder / "cups-ipp")
    printer = Printer(place.folder / "cups-ipp" / "printed")
    cups.add_queue("everywhere", "ipp://localhost:%d/ipp/print" % printer.port)
    driver, jobs = Driver(place.cups, place.folder / "whole-ipp", "everywhere", environment=cups.environment), jobs_of(place.lib)[1:2]
    run_host(driver, jobs, 120)
    compare(check, "ippeveprinter", jobs, printer.documents())
    driver.end()
    cups.end()
    printer.end()


def over_port(check, place):
    port = Port(0.02)
    driver, jobs = Driver(place.port, place.folder / "whole-port", "127.0.0.1:%d" % port.number), jobs_of(place.lib)
    run_host(driver, jobs)
    compare(check, "TCP", jobs, port.arrived)
    check("TCP: the driver ends with status 0", driver.end(), 0)
    stamp = re.compile(r"\d{4}-\d\d-\d\dT\d\d:\d\d:\d\d[+-]\d\d:\d\d katchidul-port: ")
    odd = [line for line in driver.said().splitlines() if not stamp.match(line)]
    check("TCP: each line begins with its time, as the host's do", odd, [])
    port.end()


def over_device(check, place):
    line = Terminal()
    driver, jobs = Driver(place.port, place.folder / "whole-device", line.name), jobs_of(place.lib)
    run_host(driver, jobs)
    time.sleep(0.3)
    pages = [page + b"\f" for page in line.came.split(b"\f")[:-1]]
    covers = [page for page in pages if page.startswith(b",PRAYER")]
    bodies = [page for page in pages if not page.startswith(b",PRAYER")]
    check("device: covers", len(covers), len(jobs))
    for job in jobs:
        wanted = [library.brf(cells) for cells in job.pages]
        check("device: pages of job %d, in order" % job.number, [body for body in bodies if body in wanted], wanted)
    check("device: nothing else", len(bodies), sum(len(job.pages) for job in jobs))
    driver.end()
    line.end()


def run(check, place):
    for kind in (over_cups, over_ipp, over_port, over_device):
        kind(check, place)
