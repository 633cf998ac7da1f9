"""Names and values as people write them and as a terminal may show them."""
import difflib
import re

BLANKS = " \t\r"
LONGEST_QUOTE = 60


def plain(name):
    """A name without what a writer may change in it: capitals, blanks, hyphens and underscores."""
    return re.sub(r"[ \t_-]", "", name).lower()


def as_bytes(text):
    """The bytes that a text was read from. Half a pair of UTF-16, which comes from no file, is kept too."""
    try:
        return text.encode("utf-8", "surrogateescape")
    except UnicodeEncodeError:
        return text.encode("utf-8", "surrogatepass")


def escaped(value):
    """Bytes as text that any terminal may print. The blanks at a line's ends are not part of a value, so a value's own are escaped."""
    text = "".join(chr(b) if 32 <= b <= 126 and b != 92 else "\\\\" if b == 92 else "\\x%02x" % b for b in value)
    return re.sub("^ | $", r"\\x20", text)


def shown(text):
    """A text without anything that a terminal would obey."""
    return "".join(letter if letter.isprintable() else escaped(as_bytes(letter)) for letter in text)


def quoted(text):
    """A text for a message, shortened."""
    return "'%s'" % shown(text if len(text) <= LONGEST_QUOTE else text[:LONGEST_QUOTE] + "...")


def nearest(name, known):
    """The known name that a misspelt one is near to, or None."""
    by_plain = {plain(one): one for one in known}
    near = difflib.get_close_matches(plain(name)[:LONGEST_QUOTE], by_plain, 1, 0.6)
    return by_plain[near[0]] if near else None


def did_you_mean(name, known):
    """A sentence's end for a misspelt name, or nothing."""
    near = nearest(name, known)
    return "; did you mean %s?" % near if near else ""


def counted(number, thing):
    return "%d %s%s" % (number, thing, "" if number == 1 else "s")


def listed(words):
    """a, b and c."""
    words = list(words)
    return words[0] if len(words) == 1 else "%s and %s" % (", ".join(words[:-1]), words[-1])


def utc_offset(minutes):
    """UTC+01:00."""
    return "UTC%s%02d:%02d" % ("-" if minutes < 0 else "+", abs(minutes) // 60, abs(minutes) % 60)
