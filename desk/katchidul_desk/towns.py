"""A town's name: up to 40 printable letters of ASCII, since braille and every embosser have those."""
import re
import unicodedata

from .errors import Unreadable
from .wording import as_bytes, escaped

# Letters that no accent explains.
SPELT = str.maketrans({
    "ø": "o", "Ø": "O", "ł": "l", "Ł": "L", "đ": "d", "Đ": "D", "ð": "d", "Ð": "D", "ħ": "h", "Ħ": "H", "ı": "i", "ß": "ss", "ẞ": "SS",
    "æ": "ae", "Æ": "AE", "œ": "oe", "Œ": "OE", "þ": "th", "Þ": "Th",
    # Apostrophes, those of transliterated Arabic among them; hyphens and dashes; the blank that does not break.
    **dict.fromkeys("\u2018\u2019\u02bb\u02bc\u02be\u02bf", "'"), **dict.fromkeys("\u2010\u2011\u2013\u2014", "-"), "\u00a0": " "})


def unescaped(text):
    parts = re.split(rb"\\(x[0-9a-fA-F]{2}|\\)", as_bytes(text))
    if any(b"\\" in part for part in parts[::2]):
        raise Unreadable(r"a backslash is written \\, another byte \x and two digits")
    parts[1::2] = [b"\\" if part == b"\\" else bytes.fromhex(part[1:].decode()) for part in parts[1::2]]
    return b"".join(parts)


def in_ascii(name):
    """The name without accents, or None when it has letters of another script."""
    letters = unicodedata.normalize("NFKD", name.translate(SPELT))
    kept = "".join(letter for letter in letters if not unicodedata.combining(letter))
    return kept if kept and all(32 <= ord(letter) <= 126 for letter in kept) else None


class Town:
    takes = r"1 to 40 printable characters of ASCII (\\ is a backslash, \x41 any byte)"

    def write(self, text, lengths):
        return unescaped(text)

    def words(self, value):
        return escaped(value)

    def fault(self, value, values):
        if all(32 <= byte <= 126 for byte in value):
            return None
        return "a town is written in ASCII, " + self.advice(value)

    def advice(self, value):
        """What to write in place of letters outside ASCII."""
        try:
            name = value.decode("utf-8")
        except UnicodeDecodeError:
            return "and %s has bytes that are no letters: write it anew" % escaped(value)
        written = in_ascii(name)
        if written:
            return "so write %s" % written
        odd = next(letter for letter in name if not 32 <= ord(letter) <= 126)
        if not odd.isprintable():
            return "without control characters such as %s" % escaped(as_bytes(odd))
        return "so write its name in the letters a to z: '%s' is none of them" % odd
