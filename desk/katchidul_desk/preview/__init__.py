"""The preview of orders: their times in a table beside the braille, before anything is punched."""
from .command import main
from .document import document, fragment, told
from .timetable import grouped, timetable

__all__ = ["document", "fragment", "grouped", "main", "timetable", "told"]
