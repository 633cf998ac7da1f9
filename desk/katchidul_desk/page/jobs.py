"""The spool's jobs, as the page shows them."""
from ..preview.markup import element, joined
from ..wording import counted

STATES = {"printing": "printing", "queued": "in the queue", "waiting": "waiting to be taken", "held": "held", "refused": "refused",
          "cancelled": "cancelled", "done": "done"}
HEADS = ("Job", "Order", "Town", "State", "Pages", "Note")


def progress(job):
    """A bar for those who see it, and the same in words."""
    if not job.pages:
        return "not known"
    bar = element("progress", value=job.finished, max=job.pages, aria_hidden="true")
    sent = ", %d more sent" % (job.sent - job.finished) if job.sent > job.finished else ""
    return joined(bar, " %d of %d finished%s" % (job.finished, job.pages, sent))


def row(job):
    """An order that is no job yet has no number."""
    values = [job.town, STATES.get(job.state, job.state), progress(job), job.sentence]
    return element(
        "tr", element("td", job.id or "none yet"), element("th", job.name, scope="row"), [element("td", value) for value in values])


def summary(jobs):
    """3 orders: 1 printing, 2 done."""
    counts = {state: sum(job.state == state for job in jobs) for state in STATES}
    told = ", ".join("%d %s" % (count, STATES[state]) for state, count in counts.items() if count)
    return "%s: %s." % (counted(len(jobs), "order"), told) if jobs else "The spool has no orders."


def table(jobs, fault=None):
    """A sentence and a table. Both elements are there without jobs too: the script then changes what is in them, and neither the focus
    nor a screen reader's place is lost."""
    told = element("p", fault or summary(jobs), id="jobs-told", role="status")
    heads = element("thead", element("tr", [element("th", name, scope="col") for name in HEADS]))
    rows = element("table", heads, element("tbody", [row(job) for job in jobs])) if jobs else None
    return joined(told, element("div", rows, id="jobs-table", class_="scroll", hidden=not jobs, tabindex=0, role="region",
                                aria_label="Table of the spool's orders"))
