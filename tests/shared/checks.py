"""Counts checks: a line for each that fails, and the counts as the last line."""
import itertools

MOST_TOLD = 40
LONGEST = 500


def shown(value):
    """A value for a line; bytes in hexadecimal."""
    text = value.hex() if isinstance(value, bytes) else str(value)
    return text if len(text) <= LONGEST else text[:LONGEST] + "..."


class Checks:
    """check = Checks("desk"); check("what is compared", got, wanted) ..; sys.exit(check.end())"""

    def __init__(self, name):
        self.name, self.count, self.failed = name, 0, 0

    def __call__(self, what, got, wanted=True):
        self.count += 1
        if got == wanted:
            return
        self.failed += 1
        if self.failed <= MOST_TOLD:
            print("%s: %s, not %s" % (what, shown(got), shown(wanted)), flush=True)

    def each(self, what, names, got, wanted):
        """A check for each of some named values, all of the same thing: three tuples of one length."""
        if got == wanted:
            self.count += len(wanted)
            return
        for name, one, other in itertools.zip_longest(names, got, wanted):
            self("%s of %s" % (name, what), one, other)

    def end(self):
        """Prints the last line, which tests/run adds up, and returns the exit status."""
        print("%s: %d checks, %d failed" % (self.name, self.count, self.failed))
        return 1 if self.failed else 0
