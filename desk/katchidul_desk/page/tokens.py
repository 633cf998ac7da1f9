"""One press of the button that prints, one time in the spool."""
import secrets
import threading

MOST = 1000


class Tokens:
    """A token is good for one press of the button, so that a reload or a second press prints nothing twice."""

    def __init__(self):
        self.lock, self.unused = threading.Lock(), {}

    def new(self):
        with self.lock:
            token = secrets.token_urlsafe(16)
            self.unused[token] = None
            while len(self.unused) > MOST:
                self.unused.pop(next(iter(self.unused)))
            return token

    def use(self, token):
        """Whether the token is good. This uses it up."""
        with self.lock:
            known = token in self.unused
            self.unused.pop(token, None)
            return known
