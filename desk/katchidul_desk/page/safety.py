"""Which requests the desk's page serves: those of this machine's own browser, for this page, of a bounded size.

The page has no password, so a page of another site must not be able to use it through the clerk's browser. Such a request has that
site's name as its Host or its Origin, and is refused."""
import re

LONGEST_BODY = 64 * 1024
ADDRESS = "127.0.0.1"
FORM = "application/x-www-form-urlencoded"


class Refused(Exception):
    """A request that is not served: the HTTP status, and a sentence."""

    def __init__(self, status, sentence):
        super().__init__(sentence)
        self.status = status


def own_hosts(port):
    """What the Host of a request may be. A browser leaves the port out only if it is 80."""
    names = (ADDRESS, "localhost")
    return {"%s:%d" % (name, port) for name in names} | (set(names) if port == 80 else set())


def check_sender(headers, port):
    """Raises Refused for a request that another site's page made."""
    hosts, origins = headers.get_all("Host", []), headers.get_all("Origin", [])
    if len(hosts) != 1 or hosts[0].strip().lower() not in own_hosts(port):
        raise Refused(403, "This page has another address. Open http://%s:%d/ in the browser of this computer." % (ADDRESS, port))
    if any(origin.strip().lower() not in {"http://" + host for host in own_hosts(port)} for origin in origins):
        raise Refused(403, "Another site sent this request, so it is not served.")


def body_length(headers):
    """The length of a request's body. Raises Refused when it is not stated as one number, or over 64 KB."""
    lengths = headers.get_all("Content-Length", [])
    if headers.get_all("Transfer-Encoding", []) or not lengths:
        raise Refused(411, "The request does not say how long its body is.")
    if len(lengths) != 1 or not re.fullmatch("[0-9]{1,20}", lengths[0].strip(), re.ASCII):
        raise Refused(400, "The length of the body is not a number.")
    if int(lengths[0]) > LONGEST_BODY:
        raise Refused(413, "The request is over 64 KB.")
    return int(lengths[0])


def check_type(headers):
    """Raises Refused for a body that is no form."""
    if headers.get_content_type() != FORM:
        raise Refused(415, "The body is not a form (%s)." % FORM)
