"""The desk's page by raw requests: what it serves, what it refuses, and that none of it leaves a trace on the terminal."""
import refused
import served
from client import Desk, ask, folders


def run(check, command, folder, count, seed):
    _, spool = folders(folder)
    desk = Desk(command, folder, spool)
    try:
        for part in (refused.address, served.first_page, refused.senders, refused.paths, refused.bodies, refused.methods, served.sentences,
                     served.opening):
            part(check, desk.port)
        shown, orders = served.order_files(check, desk.port, command, folder)
        served.spooled(check, desk.port, spool, shown, orders)
        served.doubtful(check, desk.port)
        refused.odd_values(check, desk.port, count // 4, seed)
        refused.changed(check, desk.port, count, seed)
        check("still there", ask(desk.port, "GET", "/").status, 200)
    finally:
        said = desk.end()
    check("nothing of it on the terminal", (said, desk.process.returncode), (b"The desk has ended.\n", 0))
    refused.bad_clients(check, folder, spool)
    served.without_spool(check, command, folder)
