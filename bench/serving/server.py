"""A server that is started, killed and started again over one folder."""
import os
import signal
import subprocess
import sys
import tempfile
import time

USER = "ann@a.example"


class Server:
    """The words of `upspin serve` over a folder, and the process that runs them."""

    def __init__(self, program, folder=None, connections=1_000_000_000, keys=None, helper=None):
        self.program = os.path.abspath(program)
        self.helper = helper or self.program
        self.folder = folder or tempfile.mkdtemp(prefix="serving-", dir=os.environ.get("SERVING", None))
        self.enrol = f"{self.folder}/enrol"
        with open(self.enrol, "w", encoding="utf-8") as file:
            file.writelines(f"{user} {key}\n" for user, key in ({USER: USER} if keys is None else keys).items())
        self.connections, self.process, self.port = connections, None, None

    def words(self):
        return [self.program, "serve", "--listen", "127.0.0.1:0", "--host", "home", "--operator", "op@h.example", "--tree", USER, "--folder", self.folder,
                "--helper", self.helper, "--enrol", self.enrol, "--connections", str(self.connections)]

    def begin(self, **options):
        """Starts it, and does not wait until it listens."""
        self.process = subprocess.Popen(self.words(), stdout=subprocess.PIPE, **options)
        return self

    def listens(self):
        """Waits until it listens, and answers its port; None where it ends before that."""
        line = self.process.stdout.readline().decode().split()
        if line[:1] != ["listening"]:
            return None
        self.port = int(line[1].rpartition(":")[2])
        return self.port

    def start(self, **options):
        self.begin(**options)
        if self.listens() is None:
            sys.exit(f"it does not listen, and ends with {self.process.wait()}")
        return self

    def kill(self):
        self.process.send_signal(signal.SIGKILL)
        self.end()

    def end(self, timeout=None):
        """Waits for its end, and answers its status."""
        status = self.process.wait(timeout)
        self.process.stdout.close()
        return status

    def status(self, word):
        """A number of /proc/PID/status, as of VmRSS in kB."""
        with open(f"/proc/{self.process.pid}/status", encoding="utf-8") as file:
            return next(int(line.split()[1]) for line in file if line.startswith(f"{word}:"))

    def descriptors(self):
        return len(os.listdir(f"/proc/{self.process.pid}/fd"))


def until(test, seconds=10):
    """Waits until a test holds."""
    end = time.monotonic() + seconds
    while not test():
        if time.monotonic() > end:
            return False
        time.sleep(0.02)
    return True
