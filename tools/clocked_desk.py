"""Desks whose clock is set at will, and commands that ask them beside the same commands on a copy of their file: what
tools/check_at_desk compares. It is no script of its own."""
import contextlib
import os
import shutil
import signal
import sqlite3
import subprocess
import time
from collections import namedtuple
from pathlib import Path

from desk_client import Desk
from file_names import program
from program import TOP, VEND, WAIT
from shared import same, wrong

# How a command ended, and what it left on its output and its error output.
Ran = namedtuple("Ran", "status out err")
# What a command on a file is told of the moment and of the tokens, and a desk is not asked.
AT_MOMENT = ("import", "shift", "sell", "show", "list", "quote", "withdraw", "base")
WITH_TRANSFORM = ("import", "shift", "sell", "base")
COPIES = 8  # of a file, in turn
# Where the output and the error output go.
OUTPUTS = ("pipe", "file", "full", "both full")


def run(words, outputs="pipe", folder=None, **options):
    """Runs the program, with its outputs by pipes, into files, or into a device that takes nothing."""
    options = {"stdin": subprocess.DEVNULL, "timeout": WAIT, **options}
    if outputs == "pipe":
        ran = subprocess.run([VEND, *words], capture_output=True, **options)
        return Ran(ran.returncode, ran.stdout, ran.stderr)
    names = {"file": ("out", "err"), "full": ("/dev/full", "err"), "both full": ("/dev/full", "/dev/full")}[outputs]
    out, err = (Path("/dev/full") if name == "/dev/full" else folder / name for name in names)
    with open(out, "wb") as out_file, open(err, "wb") as err_file:
        ran = subprocess.run([VEND, *words], stdout=out_file, stderr=err_file, **options)
    return Ran(ran.returncode, *(b"" if it.name == "full" else it.read_bytes() for it in (out, err)))


def state_of(process):
    """The letter of the state that a process is in."""
    return Path(f"/proc/{process.pid}/stat").read_text().rpartition(") ")[2][0]


@contextlib.contextmanager
def frozen(process):
    """A desk that is stopped for a while, as for a backup."""
    process.send_signal(signal.SIGSTOP)
    try:
        ends = time.monotonic() + WAIT
        while state_of(process) != "T":
            if time.monotonic() > ends:
                wrong("a desk is not stopped")
            time.sleep(0.0002)
        yield
    finally:
        process.send_signal(signal.SIGCONT)


def rows_of(file):
    """All rows of an office of which nobody changes anything, as statements."""
    with contextlib.closing(sqlite3.connect(file)) as base:
        return [*base.iterdump()]


def build_clock(folder):
    """The library that gives a program its clock, built into a folder from which programs may load it."""
    library = folder / "given_clock.so"
    subprocess.run(["cc", "-Wall", "-Wextra", "-Werror", "-O2", "-shared", "-fPIC", "-o", library,
                    TOP / "tools" / "given_clock.c"], check=True)
    return library


class Clocked:
    """A desk over the office in a file, and copies of the file in a folder. With the library it has a clock of its own."""

    def __init__(self, folder, file, library, transform="plain", **options):
        self.folder, self.file, self.library, self.transform = folder, file, library, transform
        self.clock, self.options, self.desk, self.copies = folder / "clock", options, None, 0
        self.set(1388534430)
        self.start()

    def __enter__(self):
        return self

    def __exit__(self, *_):
        self.desk.kill()

    def start(self):
        self.desk = Desk(self.file, 1000000, more=("--transform", self.transform), program=program(),
                         env=self.environment(), **self.options)

    def environment(self):
        given = {"LD_PRELOAD": str(self.library), "CLOCK_FILE": str(self.clock)} if self.library else {}
        return {**os.environ, **given}

    def again(self, transform):
        """The desk is killed, and one with this transform is started."""
        self.desk.kill()
        self.transform = transform
        self.start()

    def set(self, moment):
        self.clock.write_text(f"{moment}\n")

    @property
    def address(self):
        return f"127.0.0.1:{self.desk.port}"

    def copy(self):
        """A new copy of the file and its log, as they are while the desk is stopped."""
        with frozen(self.desk.process):
            return self.copied(self.file)

    def copied(self, file):
        """A copy of a file and its log, until there are some more."""
        self.copies += 1
        copy = self.folder / f"copy-{self.copies % COPIES}.db"
        for end in ("", "-wal"):
            if Path(f"{file}{end}").exists():
                shutil.copyfile(f"{file}{end}", f"{copy}{end}")
            else:
                Path(f"{copy}{end}").unlink(missing_ok=True)
        return copy

    def on_file(self, copy, moment, name, words):
        """The words of the same command on a copy of the file, at a moment."""
        at = ["--at", str(moment)] if name in AT_MOMENT else []
        transform = ["--transform", self.transform] if name in WITH_TRANSFORM else []
        return [name, "--file", str(copy), *at, *transform, *words]

    def ask(self, moment, name, *words, outputs="pipe"):
        """A command that asks the desk, at a moment or now. It has to end as the same one does on a copy of the file, at a
        second while it was asked, and to leave the same office."""
        words = [*map(str, words)]
        if moment:
            self.set(moment)
        copy, begun = self.copy(), int(time.time())
        by_desk = run([name, "--desk", self.address, *words], outputs, self.folder)
        moments = [moment] if moment else range(begun, int(time.time()) + 1)
        left = rows_of(self.copy())
        for it in moments:
            again = self.copied(copy)
            by_file, left_there = run(self.on_file(again, it, name, words), outputs, self.folder), rows_of(again)
            if (by_file, left_there) == (by_desk, left):
                return by_desk
        where = f"{name} {' '.join(words)} at a desk at {moment}, and on its file"
        same(by_desk, by_file, where)
        return same({*left} - {*left_there}, {*left_there} - {*left}, f"what they leave: {where}")
