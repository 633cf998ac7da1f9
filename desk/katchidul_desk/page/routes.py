"""What each path of the page does. GET changes nothing, so a reload or a step back is safe; only POST to /spool does."""
import threading
from urllib.parse import parse_qsl, quote, urlsplit

from ..errors import DeskError
from ..spool import SpoolError, status, submit
from . import answers, check, fields_html, files, form, jobs, layout, opened, safety
from .tokens import Tokens
from .work import contents, made_of

USED = "this button was pressed before, or the desk was started again since. Look at the print room below before you press it again"
UNTICKED = "nothing was printed: tick the box above the button if the pages are to be printed all the same"
NO_SPOOL = "No spool is named, so nothing can be printed from here. Start the desk with --spool FOLDER."
AREAS = ("Africa", "America", "Antarctica", "Asia", "Atlantic", "Australia", "Europe", "Indian", "Pacific")
BLANK = dict.fromkeys((field.name for field in form.FIELDS), "")


class Page:
    """The desk's page over a folder of texts and orders, and a spool or None."""

    def __init__(self, folder, spool):
        self.folder, self.spool, self.tokens, self.putting = folder, spool, Tokens(), threading.Lock()
        # Zones named by a place. The others are old names.
        self.zones = sorted(name for name in check.known_zones() if name.partition("/")[0] in AREAS)

    def answer(self, method, target, body):
        """The answer to a request that safety let in."""
        path, query = split(target)
        posted = {"/check": self.check, "/download": self.download, "/spool": self.put}.get(path)
        if method == "POST":
            return posted(dict(form.pairs(body))) if posted else answers.sentence("This path takes only GET.", 405, Allow="GET, HEAD")
        if posted:
            return answers.sentence("This path takes only POST.", 405, Allow="POST")
        if path == "/":
            return self.first(query)
        if path == "/jobs":
            return answers.page(self.room() or "")
        own = files.own(path[1:])
        return answers.Answer(200, *own) if own else answers.sentence("There is no such page.", 404)

    # GET

    def first(self, query):
        """The empty form, one filled from a file of the folder, or a filled one with its pages."""
        sent = dict(query)
        if "open" in sent:
            try:
                return self.page(opened.values(self.folder, sent["open"]), {})
            except DeskError as why:
                return self.page(BLANK, {}, layout.notice(check.as_sentence(why)))
        # It is said only if it is true: a link of another page may say anything.
        names = dict.fromkeys(job.name for job in self.jobs() if ("sent", job.name) in query)
        if names:
            return self.page(BLANK, {}, layout.notice("In the spool: %s." % ", ".join(names), "status"))
        if any(field.id in sent for field in form.FIELDS):
            return self.show(form.values(sent))
        return self.page(BLANK, {})

    def show(self, values, told=None, code=200):
        """The pages of a filled form, or its faults."""
        faults = check.faults(values)
        if faults:
            return self.page(values, faults, told, code=code)
        text = form.text(values)
        try:
            timetable = made_of(text)
        except DeskError as why:
            return self.page(values, {}, layout.notice(check.as_sentence(why)))
        printing = layout.no_printing(NO_SPOOL)
        if self.spool:
            printing = layout.printing(text, len(timetable.shown), self.tokens.new(), self.doubts(timetable))
        # The focus goes to the notice if there is one, and else to the pages.
        pages = layout.pages(timetable, layout.downloads(text, list(contents(timetable, text))), printing, told is None)
        return self.page(values, {}, told, pages, code)

    def doubts(self, timetable):
        """Why the clerk should think again before printing: what is wrong, and orders that are in the spool."""
        names = {one.name for one in timetable.shown}
        there = [job for job in self.jobs() if job.name in names and job.state not in ("refused", "cancelled")]
        wrong = ["The pages would be wrong, as is said above."] if timetable.wrong else []
        return wrong + ["%s is in the spool already: %s." % (job.name, jobs.STATES.get(job.state, job.state)) for job in there]

    def jobs(self):
        """The spool's jobs; none if there is no spool to read."""
        try:
            return status(self.spool) if self.spool else []
        except (SpoolError, OSError):
            return []

    def room(self):
        """The spool's jobs as HTML, or why they can't be listed."""
        if self.spool is None:
            return None
        try:
            return jobs.table(status(self.spool))
        except (SpoolError, OSError) as why:
            return jobs.table([], check.as_sentence(why))

    def page(self, values, faults, told=None, pages=None, code=200):
        """The whole page. `told` is a notice, `pages` what the form made."""
        opening, whole = layout.opening(files.listed(self.folder)), fields_html.whole(values, faults, self.zones)
        order, room = layout.section("form", "The order", opening, whole), layout.room(self.spool, self.room())
        title = "Timetables in braille" if not faults else "Not right yet: timetables in braille"
        return answers.page(layout.whole(title, told, order, pages, room), code)

    # POST

    def check(self, sent):
        faults = check.faults(form.values(sent))
        return answers.data({field.id: faults.get(field.name, "") for field in form.FIELDS})

    def download(self, sent):
        text, name = form.sent_text(sent), sent.get("file", "")
        try:
            made = contents(made_of(text), text).get(name)
        except DeskError as why:
            return answers.sentence(check.as_sentence(why), 422)
        return answers.download(name, made()) if made else answers.sentence("There is no such file.", 404)

    def put(self, sent):
        """Puts the orders into the spool, once for each time that the pages were shown."""
        if self.spool is None:
            return answers.sentence(NO_SPOOL, 404)
        text, names = form.sent_text(sent), []
        try:
            timetable = made_of(text)
            if not self.tokens.use(sent.get("token", "")):
                raise DeskError(USED)
            # One at a time: if two windows press at once, the second sees what the first put there.
            with self.putting:
                if self.doubts(timetable) and sent.get("anyway") != "yes":
                    raise DeskError(UNTICKED)
                for one in timetable.shown:
                    names.append(submit(self.spool, one.name, one.order))
        except (DeskError, SpoolError, OSError) as why:
            # Of several orders some can be in the spool already.
            there = "In the spool: %s. " % ", ".join(names) if names else ""
            return self.show(form.from_text(text), layout.notice(there + check.as_sentence(why), link="#print"), 409)
        return answers.moved("/?" + "&".join("sent=" + quote(name, safe="") for name in names))


def split(target):
    """The path of a request's target, and its query's names and values. Raises Refused for a target that is not of this page."""
    try:
        parts = urlsplit(target)
        if parts.scheme or parts.netloc or not target.startswith("/"):
            raise ValueError
        return parts.path, parse_qsl(parts.query, keep_blank_values=True, errors="strict", max_num_fields=form.MOST_FIELDS)
    except ValueError:
        raise safety.Refused(400, "The address is none of this page's.") from None
