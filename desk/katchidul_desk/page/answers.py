"""What the desk's page sends back."""
import dataclasses
import json
import re

HTML, TEXT, JSON, BINARY = "text/html; charset=utf-8", "text/plain; charset=utf-8", "application/json", "application/octet-stream"
# Nothing is loaded from elsewhere, no style or script is taken from the document itself, and no other page may frame this one.
POLICY = ("default-src 'none'; style-src 'self'; script-src 'self'; connect-src 'self'; img-src 'self'; form-action 'self'; "
          "base-uri 'none'; frame-ancestors 'none'")
HEADERS = {
    "Content-Security-Policy": POLICY,
    "X-Content-Type-Options": "nosniff",
    "Cache-Control": "no-store",
    # Not "no-referrer": with it a browser sends the page's own forms with no Origin.
    "Referrer-Policy": "same-origin",
    "Cross-Origin-Opener-Policy": "same-origin",
    "Cross-Origin-Resource-Policy": "same-origin",
}


@dataclasses.dataclass(frozen=True)
class Answer:
    status: int
    kind: str
    body: bytes
    headers: dict = dataclasses.field(default_factory=dict)


def page(text, status=200):
    """A name of a file may have bytes that are no letters; they are shown as escapes."""
    return Answer(status, HTML, text.encode("utf-8", "backslashreplace"))


def sentence(text, status, **headers):
    return Answer(status, TEXT, (text + "\n").encode("utf-8"), headers)


def data(value):
    return Answer(200, JSON, json.dumps(value).encode("ascii"))


def download(name, body):
    """A file for the clerk to keep. The name has only letters that need no quoting."""
    safe = re.sub("[^A-Za-z0-9._-]", "-", name)
    return Answer(200, BINARY, body, {"Content-Disposition": 'attachment; filename="%s"' % safe})


def moved(path):
    """See another path. A reload then repeats nothing."""
    return Answer(303, TEXT, b"", {"Location": path})
