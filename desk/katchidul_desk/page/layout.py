"""The page: the form, what it made, and the spool's jobs."""
from .. import preview
from ..preview.markup import element, joined
from ..wording import counted

LINKS = (("#form", "Skip to the form"), ("#pages", "Skip to the pages"), ("#room", "Skip to the print room"))


def head(title):
    return element(
        "head", element("meta", charset="utf-8"), element("meta", name="viewport", content="width=device-width, initial-scale=1"),
        element("title", title), element("link", rel="stylesheet", href="/style.css"), element("link", rel="stylesheet", href="/desk.css"),
        element("link", rel="icon", href="/icon.svg"), element("script", src="/desk.js", defer=True))


def section(name, title, *children):
    return element("section", element("h2", title, id=name + "-title"), children, id=name, aria_labelledby=name + "-title")


def notice(text, kind="alert", link=None):
    """What has happened, with the focus on it; `link` leads to the button that it is about."""
    way = element("p", element("a", "Go to the button", href=link)) if link else None
    return element("div", element("p", text), way, class_="notice", role=kind, tabindex=-1, autofocus=True)


def opening(names):
    """The folder's texts and orders, to begin from one of them."""
    if not names:
        return None
    label = element("label", "Begin from a text or an order of this folder", for_="open")
    chosen = element("select", [element("option", name, value=name) for name in names], id="open", name="open")
    return element("form", label, chosen, element("button", "Open", type="submit"), method="get", action="/", class_="line")


def hidden(name, value):
    return element("input", type="hidden", name=name, value=value)


def downloads(text, names):
    buttons = element("p", [element("button", name, type="submit", name="file", value=name) for name in names], class_="buttons")
    return element("form", element("h3", "Files to keep"), hidden("text", text), buttons, method="post", action="/download")


def no_printing(why):
    return element("section", element("h3", "Print"), element("p", why))


def printing(text, count, token, doubts):
    """The button that puts the orders into the spool. What is in doubt has to be allowed by the clerk first."""
    allow = None
    if doubts:
        box = element("input", type="checkbox", id="anyway", name="anyway", value="yes", aria_describedby="doubts")
        label = element("label", "Print the pages all the same", for_="anyway")
        allow = joined(element("ul", [element("li", doubt) for doubt in doubts], id="doubts"), element("p", box, " ", label))
    button = element("button", "Put %s into the spool" % counted(count, "order"), type="submit", class_="main")
    inside = [element("h3", "Print"), hidden("text", text), hidden("token", token), allow, element("p", button)]
    return element("form", inside, id="print", method="post", action="/spool")


def pages(timetable, downloads_part, printing_part, focused):
    """What the form made. Whatever the clerk has to know comes before the buttons."""
    groups = preview.grouped([timetable])
    title = element("h2", "The pages", id="pages-title", tabindex=-1, autofocus=focused)
    # The script tells here that the form has changed since.
    changed = element("p", id="changed", class_="wrong", role="status")
    shown = element("div", preview.fragment(groups, 3, False), class_="preview")
    told = [preview.told(group, 3) for group in groups]
    return element("section", title, changed, told, downloads_part, printing_part, shown, id="pages", aria_labelledby="pages-title")


def room(spool, jobs):
    """The print room: the spool's jobs as HTML."""
    if spool is None:
        return None
    again = element("p", element("a", "Look again", href="/#room"))
    return section("room", "The print room", element("p", "The spool is %s." % spool), jobs, again)


def whole(title, *parts):
    """The document. Links to parts that are not there are left out."""
    content = joined(*parts)
    links = [element("a", text, href=href) for href, text in LINKS if 'id="%s"' % href[1:] in content]
    body = element(
        "body", element("nav", links, class_="skip", aria_label="Skip"), element("header", element("h1", "Timetables in braille")),
        element("main", content))
    return "<!DOCTYPE html>\n" + element("html", head(title), body, lang="en") + "\n"
