# The host's system calls as strace sees them, in the lines of the stopper's trace. So the order of the calls is judged without the stopper,
# and the stopper is compared with strace.
import re
import shutil
import subprocess

from crashes import ORDERS
from trial import PATIENCE, Trial

# System calls of the host that change nothing on a disk or a link.
NO_WRITES = set("""access arch_prctl brk clock_nanosleep close connect execve exit_group faccessat faccessat2 fcntl getdents64 getegid
geteuid getgid getrandom getuid lseek mmap mprotect munmap newfstatat ppoll pread64 prlimit64 read readlink recvfrom rseq rt_sigaction
rt_sigprocmask set_robust_list set_tid_address socket""".split())


def found():
    """Whether strace is there, or Debian has it."""
    if not shutil.which("strace"):
        subprocess.run(["apt-get", "install", "-y", "-q", "strace"], capture_output=True)
    return shutil.which("strace") is not None


def text_of(word):
    return bytes.fromhex(word.replace("\\x", ""))


class Calls:
    def __init__(self, spool, own_trace):
        self.spool, self.own_trace, self.lines, self.unknown = str(spool.resolve()), str(own_trace), [], set()

    def name(self, path):
        rest = path[len(self.spool):] if path.startswith(self.spool) else path
        return rest.lstrip("/") or "."

    def follow(self, line):
        found = re.match(r"(\w+)\((.*)\) += (-?\d+)", line)
        if not found:
            return
        call, words, answer = found[1], found[2], int(found[3])
        files = [text_of(word).decode() for word in re.findall(r"<((?:\\x..)*)>", words)]
        texts = [text_of(word) for word in re.findall(r'"((?:\\x..)*)"', words)]
        if call == "openat" and "O_CREAT" not in words or self.own_trace in [*files, *(text.decode("latin-1") for text in texts)]:
            return
        if call in ("openat", "mkdirat", "unlinkat", "renameat", "renameat2"):
            known = {"openat": "create", "mkdirat": "mkdir", "unlinkat": "remove"}.get(call, "rename")
            self.lines += [" ".join([known, *(text.decode() for text in texts)])] if answer >= 0 else []
        elif call == "fsync":
            self.lines += ["fsync " + self.name(files[0])] if answer == 0 else []
        elif call == "write":
            said = int(words.split("<")[0]) <= 2
            self.lines.append(" ".join(["say -" if said else "write " + self.name(files[0]), texts[0][:answer].hex()]))
        elif call == "sendto":
            self.lines.append("send - " + texts[0][:answer].hex())
        elif call not in NO_WRITES:
            self.unknown.add(call)


def run(built, host=None, with_stopper=True):
    """Faults of the order of the calls, pages that went out, and what strace saw that the stopper did not, or is unknown."""
    with Trial(built, ORDERS, host, ["-t", 1]) as trial:
        disk, own, seen = trial.disk(unflushed="in"), trial.folder / "own", trial.folder / "seen"
        own.touch()
        words = {"LD_PRELOAD": built.stopper, "STOPPER_TRACE": str(own), "STOPPER_SPOOL": str(trial.spool.resolve())}
        settings = [word for name, value in words.items() if with_stopper for word in ("-E", f"{name}={value}")]
        words = [trial.host, "-p", str(10 * PATIENCE), str(trial.spool), trial.socket]
        subprocess.run(["strace", "-y", "-xx", "-s", "4096", "-o", str(seen), *settings, *words], stdout=subprocess.DEVNULL, check=True)
        calls = Calls(trial.spool, own)
        for line in seen.read_text().splitlines():
            calls.follow(line)
        missed = [] if calls.lines == own.read_text().splitlines() or not with_stopper else ["the stopper's trace is another"]
        seen.write_text("\n".join(calls.lines) + "\n")
        faults, pages = trial.unrecorded(disk, seen)
        return faults, pages, missed + sorted(calls.unknown)
