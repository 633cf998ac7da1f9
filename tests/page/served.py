"""What the desk's page serves: the form with its sentences, the pages, the files to keep, and the way into the spool."""
import json
import re
import signal
import subprocess

import document
import preview
from client import LEEDS, Desk, ask, form, show


def first_page(check, port):
    answer = ask(port, "GET", "/")
    check("GET /", answer.status, 200)
    root, faults = document.read(answer.text)
    check("the page is well formed", faults, [])
    check("the page for a screen reader", document.form_faults(root), [])
    links = [link for link in document.outside(root) if not re.match(r"/($|[a-z#])", link)]
    check("the page loads its own alone", links, ["script"])
    check("a name of a file is escaped", "<b>.text" in answer.text, False)
    for name, value in {"x-content-type-options": "nosniff", "cache-control": "no-store", "referrer-policy": "same-origin"}.items():
        check("header " + name, answer.headers.get(name), value)
    policy = answer.headers["content-security-policy"].split("; ")
    check("the policy", {"default-src 'none'", "script-src 'self'", "frame-ancestors 'none'"} - set(policy), set())
    check("no word of Python", "ython" in answer.headers.get("server", ""), False)
    for path in ("/style.css", "/desk.css", "/desk.js", "/icon.svg"):
        check("GET " + path, ask(port, "GET", path).status, 200)
    head = ask(port, "HEAD", "/")
    check("HEAD /", (head.status, head.body, head.headers.get("content-length") == answer.headers["content-length"]), (200, b"", True))


def sentences(check, port):
    """What is wrong is said at its field, while typing and in the page without the script."""
    def said(**values):
        answer = ask(port, "POST", "/check", body=form(**values))
        return {name: text for name, text in json.loads(answer.body).items() if text}
    check("a right form", said(**LEEDS), {})
    check("a blank form", sorted(said()), ["method", "month", "place", "town"])
    check("a month", said(**{**LEEDS, "month": "2026-13"}), {"month": "There is no month 13."})
    check("the true reason", said(**{**LEEDS, "month": "", "from": "2026-06-31", "to": "2026-07-02"}).get("from"), "June has 30 days.")
    check("two ways to give the days", list(said(**{**LEEDS, "from": "2026-10-01"})), ["month"])
    check("two ways to give the clock", list(said(**{**LEEDS, "clock": "+01:00"})), ["clock"])
    check("a last day alone", list(said(**{**LEEDS, "month": "", "to": "2026-10-01"})), ["from"])
    check("a zone", said(**{**LEEDS, "zone": "Europe/Londn"})["zone"].endswith("did you mean Europe/London?"), True)
    check("a place", list(said(**{**LEEDS, "place": "91, 0"})), ["place"])
    check("letters outside ASCII", "Tromso" in said(**{**LEEDS, "town": "Troms\u00f8"})["town"], True)
    check("a clock under 15 minutes", "+01:00" in said(**{**LEEDS, "zone": "", "clock": "+1"})["clock"], True)
    check("as a text has it", said(**{**LEEDS, "zone": "", "clock": "clock: +01:00", "place": "Place: 53.8008, -1.5491"}), {})
    check("a town of 41 letters", list(said(**{**LEEDS, "town": "a" * 41})), ["town"])
    check("a range while others are blank", said(clock="900")["clock"].startswith("900 is out of range"), True)
    check("a Ramadan sheet of 31 rows", list(said(**{**LEEDS, "ramadan": "imsak 10, shift 0"})), ["month"])
    answer = show(port, town="<script>alert(1)</script>", month="2026-13")
    root, faults = document.read(answer.text)
    check("faults in the page", (answer.status, faults), (200, []))
    check("faults for a screen reader", document.form_faults(root), [])
    summary = root.one("div", id="faults")
    check("the summary is an alert with the focus", (summary.attributes["role"], "autofocus" in summary.attributes), ("alert", True))
    check("its links", sorted(link.attributes["href"] for link in summary.all("a")), ["#method", "#month", "#place"])
    check("the sentence at the field", root.one("p", id="month-wrong").text, "There is no month 13.")
    month = root.one("input", id="month")
    check("the field is marked", month.attributes["aria-invalid"], "true")
    check("and tied to its sentence", month.attributes["aria-describedby"], "month-hint month-wrong")
    check("what was typed stays", root.one("input", id="town").attributes["value"], "<script>alert(1)</script>")
    check("and is escaped", "<script>alert" in answer.text, False)


def hidden(root, action, name):
    """A hidden value as a browser sends it back, its lines ended by carriage return and newline."""
    return root.one("form", action=action).one("input", name=name).attributes["value"].replace("\n", "\r\n")


def chosen(root, name):
    """What a list of the form has chosen."""
    return [option.attributes["value"] for option in root.one("select", id=name).all("option") if "selected" in option.attributes]


def order_files(check, port, command, folder):
    """The pages of a form, and the files to keep: those that the commands write."""
    answer = show(port, **LEEDS)
    root, faults = document.read(answer.text)
    check("the pages", (answer.status, faults, document.form_faults(root)), (200, [], []))
    text = hidden(root, "/download", "text")
    (folder / "made.text").write_text(text.replace("\r\n", "\n"))
    subprocess.run([command, "make", folder / "made.text", "--out", folder / "made.order"], check=True, stderr=subprocess.DEVNULL)
    orders = [(folder / ("made-%d.order" % at)).read_bytes() for at in (1, 2)]
    preview.check_orders(check, "the page's preview", root, orders)
    names = [button.attributes["value"] for button in root.one("form", action="/download").all("button")]
    stem = "leeds-2026-10"
    check("the files", names, [stem + ending for ending in (".html", "-1.order", "-1.brf", "-2.order", "-2.brf", ".text")])
    kept = {name: ask(port, "POST", "/download", body=form(text=text, file=name)) for name in names}
    for name, one in kept.items():
        check(name + " is a download", one.headers["content-disposition"], 'attachment; filename="%s"' % name)
    for at in (1, 2):
        check("order %d" % at, kept["%s-%d.order" % (stem, at)].body, orders[at - 1])
        written = subprocess.run([command, "brf", folder / ("made-%d.order" % at)], check=True, stdout=subprocess.PIPE).stdout
        check("BRF %d" % at, kept["%s-%d.brf" % (stem, at)].body, written)
    check("the text", kept[stem + ".text"].text, text.replace("\r\n", "\n"))
    page = preview.check_document(check, "the kept page", kept[stem + ".html"].text, orders)
    check("the kept page has no form", list(page.all("form")), [])
    for file in ("../leeds.order", "", "leeds.order"):
        check("no file %r" % file, ask(port, "POST", "/download", body=form(text=text, file=file)).status, 404)
    check("a text that makes no order", ask(port, "POST", "/download", body=form(text="town: x", file="x.order")).status, 422)
    return root, orders


def opening(check, port):
    """A text and an order of the folder, put into the form."""
    for name in ("durham.text", "durham.order"):
        root = document.read(ask(port, "GET", "/?open=" + name).text)[0]
        values = {field.attributes["id"]: field.attributes["value"] for field in root.one("form", id="order").all("input")}
        got = [values[name] for name in ("town", "place", "from", "to", "clock")]
        check("open " + name, got, ["Durham", "54.7753, -1.5849", "2026-06-01", "2026-06-30", "60"])
        check("its method", chosen(root, "method"), ["MuslimWorldLeague"])


def spooled(check, port, spool, shown, orders):
    """One press, one time in the spool."""
    text, token = hidden(shown, "/spool", "text"), hidden(shown, "/spool", "token")
    check("no token", ask(port, "POST", "/spool", body=form(text=text)).status, 409)
    check("a wrong token", ask(port, "POST", "/spool", body=form(text=text, token="x" * 22)).status, 409)
    check("nothing is in the spool yet", list((spool / "in").iterdir()), [])
    sent = ask(port, "POST", "/spool", body=form(text=text, token=token))
    check("into the spool", (sent.status, sent.headers.get("location", "")[:7]), (303, "/?sent="))
    there = sorted((path.name, path.read_bytes()) for path in (spool / "in").iterdir() if not path.name.startswith("."))
    check("the spool has the orders", there, [("leeds-2026-10-%d.order" % at, order) for at, order in enumerate(orders, 1)])
    again = ask(port, "POST", "/spool", body=form(text=text, token=token))
    check("a second press", (again.status, "pressed before" in again.text), (409, True))
    shown = document.read(again.text)[0]
    check("the form keeps its values", shown.one("input", id="town").attributes["value"], "Leeds")
    check("and its choices", chosen(shown, "method"), ["MuslimWorldLeague"])
    check("what is there is told", [line.text for line in shown.one("ul", id="doubts").all("li")],
          ["leeds-2026-10-%d.order is in the spool already: waiting to be taken." % at for at in (1, 2)])
    unticked = ask(port, "POST", "/spool", body=form(text=text, token=hidden(shown, "/spool", "token")))
    check("again without the tick", (unticked.status, "tick the box" in unticked.text), (409, True))
    token = hidden(document.read(unticked.text)[0], "/spool", "token")
    waits = ask(port, "POST", "/spool", body=form(text=text, token=token, anyway="yes"))
    check("again with the tick, while the first waits", (waits.status, "waits in the spool already" in waits.text), (409, True))
    check("the spool has no more", len(list((spool / "in").iterdir())), 2)
    told = document.read(ask(port, "GET", sent.headers["location"]).text)[0]
    check("what went in is told", told.one("div", class_="notice").text, "In the spool: leeds-2026-10-1.order, leeds-2026-10-2.order.")
    untrue = document.read(ask(port, "GET", "/?sent=york.order").text)[0]
    check("what did not go in is not told", list(untrue.all("div", class_="notice")), [])
    jobs = document.read(ask(port, "GET", "/jobs").text)[0]
    rows = [[cell.text for cell in row.all() if cell.name in ("td", "th")] for row in jobs.one("tbody").all("tr")]
    check("the jobs", [row[1:4] for row in rows], [["durham.order", "Durham", "printing"]] + [
        ["leeds-2026-10-%d.order" % at, "Leeds", "waiting to be taken"] for at in (1, 2)])
    check("a job's progress", (rows[0][0], rows[0][4].strip()), ("7", "1 of 2 finished, 1 more sent"))
    check("the jobs in a sentence", jobs.one("p", id="jobs-told").text, "3 orders: 1 printing, 2 waiting to be taken.")


def doubtful(check, port):
    """Fajr before the change of its night, and a place of another zone: the pages are shown, and printed only if that is allowed."""
    tromso = {**LEEDS, "place": "69.6492, 18.9553", "month": "2026-03", "zone": "Europe/Oslo"}
    elsewhere = {**LEEDS, "zone": "Pacific/Honolulu"}
    for name, values, wanted in (("one clock is not enough", tromso, "one clock can"), ("another zone", elsewhere, "belong together")):
        root = document.read(show(port, **values).text)[0]
        told = [line.text for section in root.all("section", class_="told") for line in section.all("li")]
        check(name + ": told", any(wanted in line for line in told), True)
        check(name + ": the box", len(list(root.all("input", id="anyway"))), 1)
        sent = form(text=hidden(root, "/spool", "text"), token=hidden(root, "/spool", "token"))
        check(name + ": not printed without the tick", ask(port, "POST", "/spool", body=sent).status, 409)


def without_spool(check, command, folder):
    desk = Desk(command, folder, None)
    answer = show(desk.port, **LEEDS)
    check("without a spool there is no button for it", 'action="/spool"' in answer.text or "--spool" not in answer.text, False)
    check("nothing goes into none", ask(desk.port, "POST", "/spool", body=form(text="", token="")).status, 404)
    busy = subprocess.run([command, "desk", "--port", str(desk.port)], stdout=subprocess.PIPE, stderr=subprocess.PIPE, check=False)
    check("a port that is in use", (busy.returncode, b"choose another by --port" in busy.stderr), (2, True))
    check("ended by SIGTERM", (desk.end(signal.SIGTERM), desk.process.returncode), (b"The desk has ended.\n", 0))
    for words in (["--port", "x"], ["--port", "65536"], ["--port"], ["--folder", "none"], ["--spool", "none"], ["--other", "1"], ["file"]):
        ended = subprocess.run([command, "desk", *words], stdout=subprocess.PIPE, stderr=subprocess.PIPE, check=False)
        check("desk " + " ".join(words), (ended.returncode, ended.stderr.count(b"\n"), b"Traceback" in ended.stderr), (2, 1, False))
