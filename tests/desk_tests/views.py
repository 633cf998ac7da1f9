"""The commands that show an order, against what the proved programs print."""
import datetime
import os
import re
import shlex
import tempfile

from katchidul_desk import braille, helps, reading, tables, weeks
from katchidul_desk.command import APART, COMMANDS

from .checks import ROOT, check, program, run, started

EXAMPLES = sorted((ROOT / "examples").glob("*.order"))
TIME = re.compile(r"([+-]\d)T(\d\d):(\d\d):\d\d")


def unchanged():
    """Byte for byte what the programs print, for accepted orders and for a refused one."""
    for path in EXAMPLES:
        order, status = path.read_bytes(), 1 if path.stem == "cut" else 0
        for name in ("sheet", "wear"):
            check("%s of %s" % (name, path.name), run(name, path)[:2], (status, program(name, order)))
        if path.stem in ("cut", "durham-clock", "west"):
            check("week --plain of " + path.name, run("week", "--plain", path)[:2], (status, program("week", order)))
            check("cells --plain of " + path.name, run("cells", "--plain", path)[:2], (status, b"" if status else program("cells", order)))
    order = EXAMPLES[0].read_bytes()
    check("from standard input", run("sheet", given=order)[1], program("sheet", order))
    check("with a dash", run("sheet", "-", given=order)[1], program("sheet", order))
    june = ROOT / "examples" / "durham-june.text"
    check("of a text", run("sheet", june)[1], (ROOT / "examples" / "durham-june.sheet").read_bytes())
    check("of a text with an option", run("wear", june, "--clock", "+01:00")[1], b"dots 2653\n")
    status, printed, said = run("sheet", ROOT / "examples" / "cut.order")
    check("a refused order's reason", said.splitlines()[0],
          "katchidul: cut.order is refused: at byte 20, the order ends inside latitude (tag 4), after 3 of 8 bytes")


def expected_table(order):
    """The table's lines from the sheet's text: by the clock, with the days from the row's date."""
    clock = datetime.timedelta(minutes=reading.clock(order))
    for line in program("sheet", order).decode().splitlines()[2:]:
        date, *times = line.split(" ")
        day = datetime.date.fromisoformat(date)
        if times[0] == "refused":
            yield date, "refused %s day %s" % (times[1], times[3])
            continue
        shown = []
        for days, hour, minute in (TIME.fullmatch(time).groups() for time in times):
            at = datetime.datetime.combine(day, datetime.time(int(hour), int(minute))) + datetime.timedelta(int(days)) + clock
            ahead = (at.date() - day).days
            shown.append(at.strftime("%H:%M") + ("%+d" % ahead if ahead else ""))
        yield date, " ".join(shown)


def table():
    for path in EXAMPLES:
        order = path.read_bytes()
        if path.stem == "cut":
            check("the table of a refused order", run("table", path)[:2], (1, b""))
            continue
        lines = [line.split(" ", 2)[1:] for line in tables.table(order).splitlines() if re.match(r"[A-Z][a-z]{2} \d{4}-\d\d-\d\d ", line)]
        rows = list(expected_table(order))
        check("rows of %s" % path.name, len(lines), len(rows))
        for (date, shown), (wanted, times) in zip(lines, rows):
            shown = " ".join(shown.split())
            refused = re.fullmatch(r"refused (\d) day (\d)", times)
            if refused:
                lacks = {"6": "transit of the sun", "7": "sunrise", "8": "sunset"}[refused[1]]
                day = datetime.date.fromisoformat(wanted) + datetime.timedelta(int(refused[2]))
                times = "no times: there is no %s on %s" % (lacks, day)
                shown = shown.split(", which")[0]
            check("%s of %s" % (wanted, path.name), (date, shown), (wanted, times))
    status, printed, _ = run("table", ROOT / "examples" / "durham-clock.order")
    check("the clock is named", (status, b"\nclock: UTC+01:00\n" in printed), (0, True))
    check("a day's weekday", b"\nMon 2026-06-01 01:05 " in printed, True)


def pages():
    """The page's digits are the table's, for every example, so the two can be compared."""
    for path in EXAMPLES:
        if path.stem == "cut":
            continue
        order = path.read_bytes()
        rows = [braille.digits(row).split() for page in braille.pages(order) for row in page]
        expected = list(expected_table(order))
        check("rows of the table of " + path.name, len(rows), len(expected))
        for row, (date, times) in zip(rows, expected):
            six = ["--:--"] * 6 if times.startswith("refused") else [time[:5] for time in times.split(" ")[-9:-3]]
            check("%s of %s" % (date, path.name), row, [date[8:], *six])
    status, printed, _ = run("cells", ROOT / "examples" / "durham-clock.order")
    lines = printed.decode().splitlines()
    check("cells", (status, lines[0], lines[1][-40:], lines[-1]), (0, "page 1", " 01  01:05 04:36 13:05 17:31 21:33 01:04", "dots 2653"))
    status, printed, said = started("cells", ROOT / "examples" / "durham-clock.order", env={**os.environ, "PYTHONIOENCODING": "ascii"})
    check("on a terminal of ASCII", (status, all(byte < 128 for byte in printed), printed.splitlines()[1][:9], "ASCII braille" in said),
          (0, True, b"#JA #JAJE", True))
    status, printed, _ = run("brf", ROOT / "examples" / "durham-clock.order")
    check("BRF", (status, printed.count(b"\r\n"), printed.count(b"\f"), printed[:10]), (0, 30, 2, b"#JA #JAJE "))
    check("no BRF of a refused order", run("brf", ROOT / "examples" / "cut.order")[:2], (1, b""))


def several():
    june, clock = ROOT / "examples" / "durham-june.order", ROOT / "examples" / "durham-clock.order"
    check("two orders in one BRF", run("brf", june, clock)[1], run("brf", june)[1] + run("brf", clock)[1])
    check("two wear reports", run("wear", june, clock)[1].count(b"dots "), 2)
    check("no plain cells of two", run("cells", "--plain", june, clock)[:2], (2, b""))
    text = b"town: Leeds\nmonth: 2026-10\nplace: 53.8008, -1.5491\nmethod: MWL\nzone: Europe/London\n"
    status, printed, said = run("brf", "-", given=text)
    check("a text with a zone in one BRF", (status, printed.count(b"\r\n"), printed.count(b"\f"), "checked: the 186 times" in said),
          (0, 31, 2, True))
    status, printed, said = run("table", "-", given=text)
    check("its table", (status, printed.count(b"clock: UTC"), b"\nSun 2026-10-25 04:54 " in printed), (0, 2, True))
    check("its orders in words", re.findall(rb"^(?:first day|clock): .*$", run("show", "-", given=text)[1], re.MULTILINE),
          [b"first day: 2026-10-01", b"clock: 60", b"first day: 2026-10-25", b"clock: 0"])
    check("its sheet is one", run("sheet", "-", given=text)[1].count(b"\n"), 33)
    check("its weeks", run("week", "-", given=text)[1].count(b" to "), 19)
    with tempfile.TemporaryDirectory() as folder:
        out = os.path.join(folder, "leeds.brf")
        check("to a file", (run("brf", "-", "--out", out, given=text)[:2], open(out, "rb").read().count(b"\f")), ((0, b""), 2))
    check("an option of two texts", run("wear", june, clock, "--rows", "1")[1].count(b"dots "), 2)


def week():
    order = (ROOT / "examples" / "week.order").read_bytes()
    check("a week", weeks.report(order), "On the meridian: the earliest and the latest Fajr of every seven days, by the clock UTC+00:00\n\n"
          "days                       earliest              latest\n"
          "2026-06-01 to 2026-06-07   23:58-1 on 2026-06-01 23:59-1 on 2026-06-03\n")
    for path in EXAMPLES:
        if path.stem == "cut":
            check("the weeks of a refused order", run("week", path)[:2], (1, b""))
            continue
        order = path.read_bytes()
        first, clock = reading.first_day(order), reading.clock(order)
        lines = weeks.report(order).splitlines()[3:]
        own = program("week", order).decode().splitlines()
        check("windows of " + path.name, len(lines), len(own) if reading.rows(order) >= 7 else 0)
        for line, numbers in zip(lines, own):
            row, *rest = numbers.split()
            dates = "%s to %s" % (first + datetime.timedelta(int(row)), first + datetime.timedelta(int(row) + 6))
            wanted = [dates, "a day of these has no times"] if rest == ["refused"] else \
                [dates, *("%s on %s" % (minute(int(at) + clock), first + datetime.timedelta(int(its))) for at, its in (rest[:2], rest[2:]))]
            check("a window of " + path.name, re.sub(r" +", " ", line), " ".join(wanted))


def weeks_by_a_zone():
    text = b"town: Leeds\nmonth: 2026-10\nplace: 53.8008, -1.5491\nmethod: MWL\nzone: Europe/London\n"
    status, printed, said = run("week", "-", given=text)
    reported = printed.decode().splitlines()
    check("a report for each clock", (status, [line[-9:] for line in reported if "by the clock" in line]), (0, ["UTC+01:00", "UTC+00:00"]))
    check("the last seven days of each", (reported[20][:24], reported[-1][:24]), ("2026-10-18 to 2026-10-24", "2026-10-25 to 2026-10-31"))
    check("the days of the change are told", "a change of the clock among them are in none" in said, True)
    check("without a change nothing is said", run("week", "-", "--month", "2026-06", given=text)[2], "")


def minute(count):
    return "%02d:%02d" % (count % 1440 // 60, count % 60) + ("%+d" % (count // 1440) if count // 1440 else "")


def help_everywhere():
    for command in COMMANDS:
        status, printed, said = run(command, "--help")
        check("help of " + command, (status, printed.decode().startswith("katchidul " + command), said), (0, True, ""))
    top = helps.help_of(None)
    check("the top's help names every command", [name for name in [*COMMANDS, *APART] if "    %s " % name not in top and " %s  " % name not in top], [])
    header = (ROOT / "include" / "katchidul.h").read_text()
    version = ".".join(re.findall(r"^#define KATCHIDUL_VERSION_M\w+ (\d+)", header, re.MULTILINE))
    check("the version is the header's", run("--version"), (0, b"katchidul %s\n" % version.encode(), ""))
    status, _, said = run("tabel", "x")
    check("a command that is near one", (status, said), (2, "katchidul: 'tabel' is no command; did you mean table?; katchidul --help lists them\n"))


def guide():
    """What docs/DESK.md shows of the first page is what the command says."""
    blocks = re.findall(r"^```\n(.*?)^```$", (ROOT / "docs" / "DESK.md").read_text(), re.DOTALL | re.MULTILINE)
    words = shlex.split(blocks[0].replace("\\\n", " "))[1:-2]
    check("the guide's first command", words[0], "brf")
    status, printed, said = run(*words)
    check("what it says", (status, said), (0, blocks[1]))
    check("the lines of its table", blocks[2] in run("table", *words[1:])[1].decode(), True)
    check("the text has the same pages", run("brf", "-", given=blocks[3].encode())[1], printed)
    chicago = next(block for block in blocks if block.startswith("town: Chicago"))
    check("the text of Ramadan", run("table", "-", given=chicago.encode())[0], 0)


TESTS = [guide, unchanged, table, pages, several, week, weeks_by_a_zone, help_everywhere]
