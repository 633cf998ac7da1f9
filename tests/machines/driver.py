"""A driver as a process of its own."""
import os
import pathlib
import signal
import socket
import subprocess
import time


class Driver:
    def __init__(self, program, folder, machine, *options, environment=None, name="driver"):
        self.folder = pathlib.Path(folder)
        self.folder.mkdir(parents=True, exist_ok=True)
        self.program, self.environment = str(program), environment or dict(os.environ)
        self.socket, self.state, self.out = self.folder / (name + ".socket"), self.folder / (name + ".state"), self.folder / (name + ".out")
        self.words = [self.program, *options, str(self.socket), str(self.state), machine]
        self.process = None
        self.start()

    def start(self, waits=True, **more):
        with self.out.open("ab") as out:
            self.process = subprocess.Popen(self.words, stdin=subprocess.DEVNULL, stdout=out, stderr=out, env=self.environment, **more)
        for _ in range(400 if waits else 0):
            if self.process.poll() is not None:
                raise RuntimeError("the driver ended: " + self.said())
            with socket.socket(socket.AF_UNIX) as probe:
                if probe.connect_ex(str(self.socket)) == 0:
                    return
            time.sleep(0.01)

    def kill(self):
        self.process.kill()
        self.process.wait()

    def end(self, seconds=30):
        self.process.send_signal(signal.SIGTERM)
        return self.process.wait(seconds)

    def said(self):
        return self.out.read_text(errors="replace")

    def answer(self, job, pages):
        return subprocess.run([self.program, "answer", str(self.state), str(job), str(pages)], capture_output=True, text=True)

    def questions(self):
        return sorted(int(path.name) for path in (self.state / "questions").glob("[0-9]*"))
