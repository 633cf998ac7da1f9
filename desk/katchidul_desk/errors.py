"""What the desk can't do, in sentences for the desk. The command prints the sentence and ends with the status."""


class DeskError(Exception):
    status = 2


class Unreadable(DeskError):
    """A text, an option or a file that is not understood. `field` is the name that was given, `line` its line in the text."""

    def __init__(self, sentence, field=None, line=None):
        super().__init__(sentence)
        self.field, self.line = field, line


class Refused(DeskError):
    """An order that the programs refuse. `name` says which one, if that is known."""
    status = 1

    def __init__(self, refusal, name="the order"):
        super().__init__(refusal.why)
        self.refusal, self.name = refusal, name


class WrongTimes(DeskError):
    """Pages with a time that is not the zone's."""
    status = 1


class ProgramError(DeskError):
    """A proved program that is not there, was not proved, or did not end well."""


class ZoneError(DeskError):
    """A time zone that is unknown, or whose clocks no order can hold."""
