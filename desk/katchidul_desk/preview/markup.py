"""HTML and SVG as text: every text is escaped once, where it becomes part of an element."""
import html

# Elements without an end tag in HTML.
VOID = {"br", "input", "link", "meta"}


class Markup(str):
    """Text that is HTML already. Any other text is escaped before it is used."""


def escaped(text):
    return text if isinstance(text, Markup) else Markup(html.escape(str(text), quote=True))


def joined(*parts, between=""):
    """The parts one after the other; lists are taken apart, and None adds nothing."""
    flat = []
    for part in parts:
        if isinstance(part, (list, tuple)):
            flat.append(joined(*part, between=between))
        elif part is not None:
            flat.append(escaped(part))
    return Markup(between.join(flat))


def attribute(name, value):
    """True gives the bare attribute, None and False nothing. A name that is a word of Python ends in an underscore."""
    if value is None or value is False:
        return ""
    name = name.rstrip("_").replace("_", "-")
    return " " + name if value is True else ' %s="%s"' % (name, escaped(value))


def element(name, /, *children, **attributes):
    """One element with its children."""
    start = "<%s%s>" % (name, "".join(attribute(*pair) for pair in attributes.items()))
    return Markup(start if name in VOID else "%s%s</%s>" % (start, joined(*children), name))
