"""Servers that are started for a measurement and always ended, and what memory they hold."""
import select
import subprocess
import time

WAIT = 60  # seconds, for a server to listen or to end


def memory_of(pid):
    """What a process holds now and what it held at most, in KiB; nothing once it has ended."""
    with open(f"/proc/{pid}/status") as lines:
        told = dict(line.split(":", 1) for line in lines)
    return tuple(int(told[name].split()[0]) for name in ("VmRSS", "VmHWM") if name in told)


class Server:
    """A program that listens on a port of 127.0.0.1, says so on its error output, and ends by
    itself with status 0 once its connections have ended."""

    def __init__(self, words):
        begun = time.perf_counter()
        self.process = subprocess.Popen(words, stdin=subprocess.DEVNULL, stdout=subprocess.DEVNULL,
                                        stderr=subprocess.PIPE, bufsize=0)
        try:
            self.address = self.read_address(begun + WAIT)
        except BaseException:
            self.kill()
            raise
        self.opened_in = time.perf_counter() - begun

    def read_address(self, deadline):
        said = b""
        while not said.endswith(b"\n"):
            left = deadline - time.perf_counter()
            ready, _, _ = select.select([self.process.stderr], [], [], max(left, 0))
            piece = self.process.stderr.read(1) if ready else b""
            if not piece:
                raise SystemExit(f"{self.process.args} does not listen; it says {said}")
            said += piece
        word, _, address = said.decode().strip().partition(" ")
        if word != "listening":
            raise SystemExit(f"{self.process.args} does not listen; it says {said}")
        host, _, port = address.partition(":")
        return host, int(port)

    def memory(self):
        """What it holds now and what it held at most, in KiB."""
        return memory_of(self.process.pid)

    def kill(self):
        self.process.kill()
        self.process.wait()
        self.process.stderr.close()

    def __enter__(self):
        return self

    def __exit__(self, fault, *_):
        if fault is not None:
            self.kill()
            return
        try:
            status = self.process.wait(WAIT)
        except subprocess.TimeoutExpired:
            self.kill()
            raise SystemExit(f"{self.process.args} does not end") from None
        told = self.process.stderr.read()
        self.process.stderr.close()
        if status != 0 or told:
            raise SystemExit(f"{self.process.args} ended with {status} and said {told}")
