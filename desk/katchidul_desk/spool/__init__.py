"""The operator's side of a print room's spool: what is in it, orders into it, and what the host is asked to do.

host/spool.h says how a spool looks. Everything here reads and writes that folder alone; no host has to be at work."""
from .command import main
from .errors import SpoolError
from .jobs import Job, status
from .submit import submit

__all__ = ["Job", "SpoolError", "main", "status", "submit"]
