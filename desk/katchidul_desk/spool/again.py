"""Pages that are printed again: of a job whose pages were spoilt, and of one that a new machine cannot go on with."""
from __future__ import annotations

import os
import pathlib

from . import jobs, logs, orders
from .errors import SpoolError
from .files import flush_folder, replace, shown
from .submit import submit_free

NAME_BYTES = 180  # of the old name in the new one


def runs(pages: list[int]) -> list[tuple[int, int]]:
    """Pages that follow one another, as first and last."""
    found: list[tuple[int, int]] = []
    for page in sorted(set(pages)):
        if found and found[-1][1] == page - 1:
            found[-1] = found[-1][0], page
        else:
            found.append((page, page))
    return found


def words(first: int, last: int) -> str:
    return f"page {first}" if first == last else f"pages {first} to {last}"


def new_name(job: jobs.Job, first: int, last: int) -> str:
    old = os.fsdecode(os.fsencode(job.name)[:NAME_BYTES])
    return f"{old}.job{job.id}-" + (f"page{first}" if first == last else f"pages{first}-{last}")


def reprint(spool: pathlib.Path, number: int, pages: list[int]) -> list[str]:
    """Submits new orders of these pages, one for pages that follow one another. Returns their names."""
    folder = jobs.find(spool, number)
    job, order = jobs.read_job(spool, folder, number), jobs.order_of(spool / folder / str(number) / "order")
    beyond = [page for page in pages if not 1 <= page <= job.pages]
    if beyond:
        raise SpoolError(f"job {number} has {job.pages} pages, and no page {beyond[0]}")
    parts = [(new_name(job, *run), orders.cut(order, *run)) for run in runs(pages)]
    return [submit_free(spool, name, part) for name, part in parts]


# ---- reissue. The new order is put into the job's folder, the job is moved to cancelled/, and then the order is linked into in/. If this
# ends in between, the same command goes on from there. The file's count of links says whether the link was made.

LEFT, REISSUED = "reissue", "reissued"


def unfinished(spool: pathlib.Path, number: int) -> tuple[jobs.Job, int, int]:
    """The job and its first and last page that are not finished."""
    folder = jobs.find(spool, number)
    job = jobs.read_job(spool, folder, number)
    if folder == "jobs":
        raise SpoolError(f"job {number} is in work; hold it first: katchidul spool hold {number}")
    if folder == "done":
        raise SpoolError(f"job {number} is done; katchidul spool reprint {number} PAGE.. prints pages of it again")
    if folder == "cancelled":
        raise SpoolError(f"job {number} is cancelled: {job.sentence}; katchidul spool reprint {number} PAGE.. prints pages of it")
    if logs.read(jobs.text(spool / folder / str(number) / "log", logs.LOG_MAX + 1)) is None:
        raise SpoolError(f"the log of job {number} is damaged; look into the tray, and use katchidul spool reprint {number} PAGE..")
    if job.finished >= job.pages:
        raise SpoolError(f"all {job.pages} pages of job {number} are finished by its log")
    return job, job.finished + 1, job.pages


def is_left(spool: pathlib.Path, number: int) -> bool:
    """Whether a reissue of this job was begun and did not come to its end."""
    folder = spool / "cancelled" / str(number)
    return (folder / LEFT).exists() and jobs.why(folder).endswith(REISSUED)


def reissue(spool: pathlib.Path, job: jobs.Job, first: int, last: int) -> str:
    held, cancelled, name = spool / "held", spool / "cancelled", str(job.id)
    replace(held / name, LEFT, orders.cut(jobs.order_of(held / name / "order"), first, last))
    cancelled.mkdir(exist_ok=True)
    replace(cancelled, name + jobs.WHY, f"{words(first, last)} of {job.pages}: {REISSUED}\n".encode())
    os.rename(held / name, cancelled / name)
    flush_folder(cancelled)
    flush_folder(held)
    (held / (name + jobs.WHY)).unlink(missing_ok=True)
    return finish_reissue(spool, job.id)


def finish_reissue(spool: pathlib.Path, number: int) -> str:
    left = spool / "cancelled" / str(number) / LEFT
    job = jobs.read_job(spool, "cancelled", number)
    pages = orders.read(jobs.order_of(left)).pages
    name = new_name(job, job.pages - pages + 1, job.pages)
    if left.stat().st_nlink == 1:
        try:
            os.link(left, spool / "in" / name)
        except FileExistsError:
            raise SpoolError(f"an order {shown(name)} waits in the spool already; move it away and reissue again") from None
        flush_folder(spool / "in")
    left.unlink()
    flush_folder(left.parent)
    return name
