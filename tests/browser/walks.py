"""The walks of tests/browser/run through the desk's page."""
import re
import subprocess
import time

import pictures
import preview

COMMAND = preview.ROOT / "katchidul"
LEEDS = "town: Leeds\nmonth: 2026-10\nplace: 53.8008, -1.5491\nmethod: MWL\nzone: Europe/London\n"
# A row of the page's tables: its texts, and the path that draws its dots.
ROWS = """return [...document.querySelectorAll(".page tbody tr")].map((row) => ({
  texts: [...row.cells].map((cell) => cell.innerText.trim()), path: row.querySelector(".raised").getAttribute("d")}))"""
# The stops of the Tab key in the form: id, role, label, and what is typed there.
STOPS = [
    ("town", "textbox", "Town", "Leeds"), ("place", "textbox", "Place", "53.8008, -1.5491"), ("month", "textbox", "Month", "2026-13"),
    ("from", "textbox", "First day", ""), ("to", "textbox", "Last day", ""), ("method", "combobox", "Method", "muslim"),
    ("madhab", "combobox", "Asr", ""), ("zone", "combobox", "Time zone", "Europe/London"),
]
FOCUS = "const one = document.activeElement; return one.id || one.innerText || one.tagName"


class Walk:
    def __init__(self, check, browser, port, folder, kept, number):
        self.check, self.browser, self.folder, self.kept, self.number = check, browser, folder, kept, number
        self.address, self.spool, self.shots = "http://127.0.0.1:%d/" % port, folder / "spool", 0

    def picture(self, name):
        self.shots += 1
        (self.kept / ("%d-%d-%s.png" % (self.number, self.shots, name))).write_bytes(self.browser.whole_picture())

    def fill(self, **values):
        for name, value in values.items():
            self.browser.run("document.getElementById(arguments[0]).focus()", name)
            self.browser.type(("control", "a"))
            self.browser.type(("delete",))
            self.browser.type(value)

    def sentence(self, name, wanted):
        """Waits for a field's sentence."""
        script = "return document.getElementById(arguments[0]).textContent.includes(arguments[1])"
        found = self.browser.wait(script, name + "-wrong", wanted)
        self.check("the sentence at %s" % name, bool(found), True)

    def quiet(self):
        """The browser reports no error: no missing file, and nothing against the page's policy."""
        self.check("the browser's complaints", [one["message"] for one in self.browser.log() if one["level"] == "SEVERE"], [])

    def overflow(self, name):
        """Only the tables scroll sideways, and not the page."""
        wide = self.browser.run("return document.documentElement.scrollWidth - document.documentElement.clientWidth")
        self.check("%s: the page fits its window" % name, wide, 0)


def orders_of(text, folder):
    """The orders that the command makes of a text."""
    (folder / "wanted.text").write_text(text)
    subprocess.run([COMMAND, "make", folder / "wanted.text", "--out", folder / "wanted.order"], check=True, stderr=subprocess.DEVNULL)
    return [path.read_bytes() for path in sorted(folder.glob("wanted*.order"))]


def held_to_programs(walk, orders):
    """What is on screen is what the programs print."""
    rows = walk.browser.run(ROWS)
    cells = b"".join(preview.program("cells", order) for order in orders)
    wanted = [cells[at:at + 39] for at in range(0, len(cells), 39)]
    walk.check("the dots on screen are the cells", [drawn(row["path"]) for row in rows], wanted)
    walk.check("what the braille says", [row["texts"][-1] for row in rows], [preview.said(row) for row in wanted])
    walk.check("the table on screen is the sheet by the clock", [row["texts"][:-2] for row in rows],
               [row for order in orders for row in preview.wanted_rows(order)])
    return wanted


def drawn(path):
    """The cells of a path, by the test of the preview."""
    class Picture:
        def one(self, *_, **__):
            return type("Path", (), {"attributes": {"d": path}})
    return preview.drawn_cells(Picture())


def seen(walk, number, cells):
    """A row's dots by the pixels of the screen: dark if raised, light if not."""
    box = walk.browser.run("""const row = document.querySelectorAll(".page svg.braille")[arguments[0]];
        row.scrollIntoView({block: "center", inline: "center"});
        const box = row.getBoundingClientRect();
        return [box.x + scrollX, box.y + scrollY, box.width, box.height]""", number)
    rows = pictures.pixels(walk.browser.picture(*box, scale=4))
    scale, wrong = len(rows[0]) / 468, 0
    for at, cell in enumerate(cells):
        for dot in range(6):
            x, y = 12 * at + (3 if dot < 3 else 8), 5 + dot % 3 * 5
            dark = rows[int(y * scale)][int(x * scale)] < 100
            wrong += dark != bool(cell >> dot & 1)
    walk.check("the pixels of row %d" % number, wrong, 0)


def clerk(walk):
    """Wrong first, then right; the pages, the files, and the paper."""
    walk.browser.open(walk.address)
    walk.check("nothing is wrong before anything is typed", [text for text in walk.browser.texts(".wrong") if text], [])
    walk.fill(town="Troms\u00f8", place="53.8008", month="2026-13", clock="+1")
    walk.sentence("town", "so write Tromso")
    walk.sentence("place", "with a comma between")
    walk.sentence("month", "There is no month 13.")
    walk.sentence("clock", "For hours write")
    walk.check("a field that was not visited is left in peace", walk.browser.text("#method-wrong"), "")
    walk.check("the focus stays", walk.browser.run(FOCUS), "clock")
    walk.picture("typing")
    walk.overflow("typing")
    walk.browser.click("button.main")
    walk.browser.wait("return document.getElementById('faults')")
    walk.check("the focus is on what is wrong", walk.browser.run(FOCUS), "faults")
    walk.picture("faults")
    walk.fill(town="Leeds", place="53.8008, -1.5491", month="2026-10", clock="", zone="Europe/London", method="muslim")
    right = walk.browser.wait("return ![...document.querySelectorAll('.wrong')].some((one) => one.textContent)")
    walk.check("nothing is wrong any more", bool(right), True)
    walk.browser.click("button.main")
    walk.browser.wait("return document.getElementById('pages')")
    walk.check("the focus is on the pages", walk.browser.run(FOCUS), "pages-title")
    orders = orders_of(LEEDS, walk.folder)
    cells = held_to_programs(walk, orders)
    for number in (0, 23, 24, 30):
        seen(walk, number, cells[number])
    walk.picture("pages")
    walk.overflow("pages")
    keep_files(walk, orders)
    walk.browser.run("document.getElementById('town').focus()")
    walk.browser.type(("tab",))
    time.sleep(1)
    walk.check("a visit changes nothing", walk.browser.text("#changed"), "")
    walk.fill(town="York")
    changed = walk.browser.wait("return document.getElementById('changed').textContent")
    walk.check("pages of another form are marked", str(changed)[:20], "The form has changed")
    narrow(walk)
    walk.quiet()
    paper(walk)


def keep_files(walk, orders):
    for at, order in enumerate(orders, 1):
        kept = downloaded(walk, "leeds-2026-10-%d.order" % at)
        walk.check("the order that is kept", kept, order)
        (walk.folder / "one.order").write_bytes(order)
        wanted = subprocess.run([COMMAND, "brf", walk.folder / "one.order"], stdout=subprocess.PIPE, check=True).stdout
        walk.check("the BRF that is kept", downloaded(walk, "leeds-2026-10-%d.brf" % at), wanted)


def downloaded(walk, name):
    walk.browser.click("button[value='%s']" % name)
    path, end = walk.folder / "downloads" / name, time.monotonic() + 20
    while not path.exists() and time.monotonic() < end:
        time.sleep(0.1)
    return path.read_bytes() if path.exists() else None


def small_screen(walk):
    """On a screen of 1280 pixels the tables are seen whole, with the braille's digits."""
    walk.browser.ask("POST", "/window/rect", {"width": 1280, "height": 900})
    hidden = walk.browser.run("return [...document.querySelectorAll('.preview .scroll')].map((one) => one.scrollWidth - one.clientWidth)")
    walk.check("a small screen: what is hidden of the tables", hidden, [0, 0])


def narrow(walk):
    """On a small screen, and as large as a reader with weak eyes makes it: a window of 640 pixels."""
    small_screen(walk)
    walk.browser.ask("POST", "/window/rect", {"width": 640, "height": 900})
    walk.overflow("a narrow window")
    walk.picture("narrow")
    walk.browser.ask("POST", "/window/rect", {"width": 1366, "height": 900})


def paper(walk):
    """The kept page, on A4: one sheet in front, then one for each braille page."""
    downloaded(walk, "leeds-2026-10.html")
    walk.browser.open("file://%s" % (walk.folder / "downloads" / "leeds-2026-10.html"))
    walk.picture("kept")
    data = walk.browser.printed()
    (walk.kept / ("%d-kept.pdf" % walk.number)).write_bytes(data)
    boxes = {tuple(round(float(side)) for side in box.split()) for box in re.findall(rb"/MediaBox ?\[([^\]]*)\]", data)}
    walk.check("the paper is A4", boxes, {(0, 0, 842, 595)})
    walk.check("the sheets of paper", len(re.findall(rb"/Type ?/Page\b", data)), 3)


def by_keyboard(walk):
    """No mouse: Tab, Enter, and what is typed. Each stop has a name for a screen reader."""
    browser = walk.browser
    browser.open(walk.address)
    browser.type(("tab",))
    walk.check("the first stop", browser.run(FOCUS), "Skip to the form")
    browser.type(("enter",))
    stop(walk, "open", "combobox", "Begin from a text or an order of this folder")
    browser.type(("tab",))
    for name, role, label, text in STOPS:
        stop(walk, name, role, label)
        browser.type(text)
    walk.sentence("month", "There is no month 13.")
    walk.check("what a screen reader says of the field", [one for one in browser.spoken("textbox") if one[0] == "Month"],
               [("Month", "As 2026-10 or October 2026. There is no month 13.", True)])
    browser.type(("enter",))
    browser.wait("return document.getElementById('faults')")
    walk.check("the faults have the focus", browser.run(FOCUS), "faults")
    browser.type(("tab",))
    browser.type(("enter",))
    walk.check("a fault's link leads to its field", browser.run("return location.hash"), "#month")
    browser.type(("control", "a"))
    browser.type("2026-10")
    browser.type(("enter",))
    browser.wait("return document.getElementById('pages')")
    walk.check("the pages have the focus", browser.run(FOCUS), "pages-title")
    cells = held_to_programs(walk, orders_of(LEEDS, walk.folder))
    rows = [name for name, _, _ in browser.spoken("image") if name.startswith("Braille: ")]
    walk.check("what a screen reader says of the dots", rows, ["Braille: " + " ".join(preview.said(row).split()) for row in cells])
    to_the_spool(walk)


def to_the_spool(walk):
    """From the pages to the button, past the files to keep."""
    browser = walk.browser
    for ending in (".html", "-1.order", "-1.brf", "-2.order", "-2.brf", ".text"):
        browser.type(("tab",))
        walk.check("a stop at each file", browser.run(FOCUS), "leeds-2026-10" + ending)
    browser.type(("tab",))
    walk.check("then the spool's button", browser.run(FOCUS), "Put 2 orders into the spool")
    walk.check("the focus is seen", browser.run("return getComputedStyle(document.activeElement).outlineStyle"), "solid")
    walk.picture("button")
    browser.type(("enter",))
    browser.wait("return location.search.startsWith('?sent=')")
    walk.check("what went in is told and has the focus", browser.run("return document.activeElement.innerText.trim()"),
               "In the spool: leeds-2026-10-1.order, leeds-2026-10-2.order.")
    walk.check("the spool has them", waiting(walk), ["leeds-2026-10-1.order", "leeds-2026-10-2.order"])
    walk.quiet()


def waiting(walk):
    return sorted(path.name for path in (walk.spool / "in").iterdir())


def stop(walk, name, role, label):
    """The next stop of the Tab key, with what a screen reader says of it."""
    walk.browser.type(("tab",))
    walk.check("the stop " + name, walk.browser.run(FOCUS), name)
    element = walk.browser.find("#" + name)
    said = [walk.browser.ask("GET", "/element/%s/%s" % (element, what)) for what in ("computedrole", "computedlabel")]
    walk.check("what is said of " + name, said, [role, label])


def room(walk):
    """An order goes into the spool once, even if the button is pressed again; and the jobs' progress while the page is open."""
    browser = walk.browser
    browser.open(walk.address + "?open=durham.text")
    browser.click("button.main")
    browser.wait("return document.getElementById('pages')")
    browser.click("form[action='/spool'] button")
    browser.wait("return location.search.startsWith('?sent=')")
    browser.ask("POST", "/refresh", {})
    browser.ask("POST", "/back", {})
    browser.wait("return document.getElementById('pages')")
    browser.click("form[action='/spool'] button")
    told = browser.wait("const one = document.querySelector('.notice'); return one && one.innerText")
    # Which of the two depends on whether the browser kept the page or asked for it again.
    walk.check("a second press is told", str(told).startswith(("Nothing was printed", "This button was pressed before")), True)
    walk.check("the form keeps its method", browser.run("return document.getElementById('method').value"), "MuslimWorldLeague")
    label = browser.ask("GET", "/element/%s/computedlabel" % browser.find("#anyway"))
    walk.check("the box has its label", label, "Print the pages all the same")
    walk.check("the order is there once", waiting(walk), ["durham-2026-06.order"])
    walk.picture("twice")
    walk.check("a job's progress", browser.texts("#jobs-table tbody tr:first-child td")[3], "1 of 2 finished, 1 more sent")
    browser.run("document.getElementById('jobs-table').focus()")
    job = walk.spool / "jobs" / "7"
    (job / "log").write_bytes(bytes.fromhex("0100020001 0100020002 0200020001 0200020002"))
    job.rename(walk.spool / "done" / "7")
    shown = browser.wait("return document.getElementById('jobs-table').innerText.includes('2 of 2 finished')")
    walk.check("the page follows it", bool(shown), True)
    walk.check("the focus stays in the table", browser.run(FOCUS), "jobs-table")
    walk.check("and says so", browser.text("#jobs-told"), "2 orders: 1 waiting to be taken, 1 done.")
    walk.picture("room")


def without_script(walk):
    """The same page without its script: the server says what is wrong."""
    browser = walk.browser
    browser.open(walk.address)
    walk.fill(town="Leeds", month="2026-13")
    time.sleep(1)
    walk.check("no sentence while typing", browser.text("#month-wrong"), "")
    browser.click("button.main")
    browser.wait("return document.getElementById('faults')")
    walk.check("the sentence after the button", browser.text("#month-wrong"), "There is no month 13.")
    walk.fill(month="2026-10", place="53.8008, -1.5491", zone="Europe/London", method="muslim")
    browser.click("button.main")
    browser.wait("return document.getElementById('pages')")
    held_to_programs(walk, orders_of(LEEDS, walk.folder))
    browser.click("form[action='/spool'] button")
    browser.wait("return location.search.startsWith('?sent=')")
    walk.check("into the spool", waiting(walk), ["leeds-2026-10-1.order", "leeds-2026-10-2.order"])
    walk.picture("sent")
