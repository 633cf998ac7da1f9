"""A cupsd of the test's own, in a folder of its own, that can be killed and started again; and ippeveprinter, a printer for it."""
import os
import pathlib
import re
import signal
import socket
import subprocess
import time

FILES = """ServerRoot {root}
RequestRoot {root}/spool
TempDir {root}/temp
CacheDir {root}/cache
StateDir {root}/state
DataDir /usr/share/cups
ServerBin /usr/lib/cups
AccessLog {root}/access_log
ErrorLog {root}/error_log
PageLog {root}/page_log
SystemGroup root
FatalErrors none
"""

# Jobs belong to their owners, as in Debian's own file. Anyone may change queues, since the socket is in the test's own folder.
SETTINGS = """LogLevel debug
MaxLogSize 0
Listen {root}/socket
Browsing Off
WebInterface No
DefaultAuthType None
{more}
<Location />
  Order allow,deny
  Allow all
</Location>
<Policy default>
  JobPrivateAccess default
  JobPrivateValues default
  <Limit Send-Document Hold-Job Release-Job Restart-Job Cancel-Job Set-Job-Attributes>
    Require user @OWNER @SYSTEM
    Order deny,allow
  </Limit>
  <Limit All>
    Order deny,allow
  </Limit>
</Policy>
"""

# What docs/PRINT_ROOM.md asks of a print room's cupsd.conf.
ADVISED = "PreserveJobHistory Yes\nPreserveJobFiles No\nDirtyCleanInterval 0\n"


class Cups:
    def __init__(self, root, more=ADVISED):
        self.root = pathlib.Path(root)
        for folder in ("", "spool", "temp", "cache", "state", "ppd"):
            (self.root / folder).mkdir(parents=True, exist_ok=True)
        (self.root / "spool" / "tmp").mkdir(exist_ok=True)
        (self.root / "cups-files.conf").write_text(FILES.format(root=self.root))
        (self.root / "cupsd.conf").write_text(SETTINGS.format(root=self.root, more=more))
        os.chmod(self.root, 0o755)
        self.environment = dict(os.environ, CUPS_SERVER=str(self.root / "socket"))
        self.process = None
        self.start()

    def start(self):
        out = (self.root / "out").open("ab")
        words = ["cupsd", "-f", "-c", str(self.root / "cupsd.conf"), "-s", str(self.root / "cups-files.conf")]
        self.process = subprocess.Popen(words, stdin=subprocess.DEVNULL, stdout=out, stderr=out, start_new_session=True)
        for _ in range(200):
            if subprocess.run(["lpstat", "-r"], env=self.environment, capture_output=True).stdout.startswith(b"scheduler is running"):
                return
            time.sleep(0.05)
        raise RuntimeError("cupsd did not start: see %s" % (self.root / "error_log"))

    def kill(self):
        self.process.kill()
        self.process.wait()

    def end(self):
        self.process.send_signal(signal.SIGTERM)
        try:
            self.process.wait(10)
        except subprocess.TimeoutExpired:
            self.kill()

    def ask(self, *words, fails=False):
        done = subprocess.run(words, env=self.environment, capture_output=True, text=True)
        if done.returncode and not fails:
            raise RuntimeError("%s: %s" % (" ".join(words), done.stderr))
        return done.stdout

    def add_queue(self, name, device, policy="stop-printer"):
        self.ask("lpadmin", "-p", name, "-E", "-v", device, "-o", "printer-error-policy=" + policy)

    def log(self):
        return (self.root / "error_log").read_text(errors="replace")


class Printer:
    """ippeveprinter: keeps each document as a file."""

    def __init__(self, root):
        with socket.socket() as free:
            free.bind(("127.0.0.1", 0))
            self.port = free.getsockname()[1]
        self.root = pathlib.Path(root)
        self.root.mkdir(parents=True, exist_ok=True)
        os.chmod(self.root, 0o777)
        # ippeveprinter needs a system bus to announce itself. It gets one of its own, which nobody listens to.
        bus = "unix:path=%s" % (self.root.parent / "bus")
        out = (self.root.parent / "ippeveprinter.out").open("ab")
        self.bus = subprocess.Popen(["dbus-daemon", "--session", "--nofork", "--address=" + bus], stdout=out, stderr=out)
        while not (self.root.parent / "bus").exists():
            time.sleep(0.02)
        words = ["ippeveprinter", "-k", "-d", str(self.root), "-p", str(self.port), "-r", "off", "-n", "localhost", "-f",
                 "application/octet-stream,application/vnd.cups-raw", "braille"]
        self.process = subprocess.Popen(words, stdin=subprocess.DEVNULL, stdout=out, stderr=out, start_new_session=True,
                                        env=dict(os.environ, DBUS_SYSTEM_BUS_ADDRESS=bus))

    def end(self):
        for process in (self.process, self.bus):
            process.kill()
            process.wait()

    def documents(self):
        return [path.read_bytes() for path in sorted(self.root.iterdir(), key=lambda p: int(re.match(r"(\d+)", p.name).group(1)))]
