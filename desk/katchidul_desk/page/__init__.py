"""The desk's page: a form for an order, its preview, its files, and the spool's jobs, in a browser of the same computer."""
from .command import main

__all__ = ["main"]
