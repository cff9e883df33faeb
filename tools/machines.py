"""Three machines on one, for tools/check_machines: each is a Debian system of its own with a disk of its own (ext4 in
a file), on one network that is theirs. A machine can be switched off, cut off, or lose its power with all that it had
not synced, and started again. All of them are gone when the script ends. It is no script of its own."""
import contextlib
import ctypes
import encodings.idna  # what a name of a computer is read with, before a thread is another user
import fcntl
import os
import shutil
import signal
import socket
import struct
import subprocess
import threading
import time
from pathlib import Path

import own_machine
from shared import wrong

LIBC = ctypes.CDLL(None, use_errno=True)
NETWORK = "10.77.0."
FENCE = (f"{NETWORK}99", 7000)  # fence_trial.py asks there
DISK = 3 << 30
# ext4 takes no further write, and its journal is not brought to the disk: what a power cut leaves.
SHUTDOWN, NO_FLUSH = 0x8004587D, struct.pack("I", 2)
PATIENCE = 60  # seconds for a disk to be let go, or a machine to start


def enter(space):
    """Has this thread be in a network's space."""
    if LIBC.setns(space, 0x40000000) != 0:
        raise OSError(ctypes.get_errno(), "setns")


class Late(SystemExit):
    """Something that had to come did not."""


def wait_until(holds, why, seconds=PATIENCE, pause=0.05):
    """Waits for something that has to come, and gives what it is."""
    until = time.monotonic() + seconds
    while not (found := holds()):
        if time.monotonic() > until:
            raise Late(f"wrong: {why}: not within {seconds} seconds")
        time.sleep(pause)
    return found


class Network:
    """A network of its own with a switch, to which each machine has a link."""

    def __init__(self):
        self.process = subprocess.Popen(["unshare", "--net", "sleep", "infinity"],
                                        preexec_fn=own_machine.die_with_parent)
        # Its network is its own once the program has become `sleep`.
        wait_until(lambda: Path(f"/proc/{self.process.pid}/comm").read_text() == "sleep\n", "a network")
        self.space = os.open(f"/proc/{self.process.pid}/ns/net", os.O_RDONLY)
        self.ip("link set lo up", "link add switch type bridge", "link set switch up")

    def ip(self, *orders):
        for order in orders:
            subprocess.run(["nsenter", "--target", str(self.process.pid), "--net", "ip", *order.split()], check=True)

    def join(self, number, process):
        """Gives the machine of this first process its link."""
        with contextlib.suppress(subprocess.CalledProcessError):
            # The link of a machine that is gone goes a moment after it.
            subprocess.run(["nsenter", "--target", str(self.process.pid), "--net", "ip", "link", "delete",
                            f"link{number}"], check=True, stderr=subprocess.DEVNULL)
        self.ip(f"link add link{number} type veth peer name eth0 netns {process}",
                f"link set link{number} master switch", f"link set link{number} up")

    def connect(self, address, timeout):
        """A connection to an address, from this network. The thread stays on it."""
        enter(self.space)
        return socket.create_connection(address, timeout)

    def stop(self):
        self.process.kill()
        self.process.wait()


class Fence(threading.Thread):
    """What switches a machine off for the cluster manager, at an address of the network: `off NAME` is answered `ok`
    once it is off, `status NAME` with `on` or `off`. It may lie, as a fence does that is wired wrongly, or fail."""

    def __init__(self, network, members):
        super().__init__(daemon=True)
        self.network = network
        self.members = {it.name_in_network: it for it in members}
        self.lies = self.fails = False
        network.ip(f"address add {FENCE[0]}/24 dev switch")
        self.start()

    def run(self):
        enter(self.network.space)
        with socket.create_server(FENCE) as server:
            while True:
                with contextlib.suppress(OSError), server.accept()[0] as client:
                    client.settimeout(5)
                    act, name = client.recv(100).decode().split()
                    client.sendall(self.answer(act, self.members[name]).encode())

    def answer(self, act, member):
        if self.fails:
            return "failed"
        if act == "status":
            return "on" if member.is_on() and not self.lies else "off"
        if not self.lies:
            member.off()
        return "ok"


class Member(own_machine.Machine):
    """One of the machines."""

    def __init__(self, room, stage, number, network, archives):
        self.number = number
        self.name_in_network = f"office-{number}"
        self.power = threading.Lock()
        self.address = f"{NETWORK}{number}"
        self.network = network
        self.archives = archives
        room.mkdir()
        self.disks = [room / "disk.img", room / "office.img"]
        for image in self.disks:
            with open(image, "wb") as file:
                file.truncate(DISK)
            subprocess.run(["mkfs.ext4", "-q", "-E", "lazy_itable_init=0", image], check=True)
        super().__init__(room, stage, name=f"check-machines-{number}", image=self.disks[0])

    def fetch(self, *_):
        """What is installed was fetched once, for all machines."""
        for name in ("archives", "lists"):
            if (self.archives / name).exists():
                shutil.copytree(self.archives / name, self.room / name, copy_function=os.link)
        for cache in self.archives.glob("*pkgcache.bin"):
            os.link(cache, self.room / cache.name)

    def start(self):
        wait_until(self.is_free, f"the disks of machine {self.number}")
        super().start()
        self.network.join(self.number, self.first)
        self.ask("ip", "address", "add", f"{self.address}/24", "dev", "eth0")
        self.ask("ip", "link", "set", "eth0", "up")
        self.ask("hostname", self.name_in_network)
        self.space = os.open(f"/proc/{self.first}/ns/net", os.O_RDONLY)
        # What is enabled starts with a network that is there.
        self.ask("systemctl", "start", "--no-block", "multi-user.target")

    def is_free(self):
        """Whether nobody has the disks mounted."""
        used = subprocess.run(["losetup", "--list", "--noheadings", "--output", "BACK-FILE"], capture_output=True,
                              text=True).stdout.split()
        return not {*map(str, self.disks)} & {*used}

    def is_on(self):
        return self.process is not None and self.process.poll() is None

    def off(self):
        """Ends every process of the machine at once."""
        with self.power:
            if self.is_on():
                if self.first:
                    os.kill(int(self.first), signal.SIGKILL)
                    # A till may keep the machine's network alive for a moment, and with it the address of the office.
                    with contextlib.suppress(subprocess.CalledProcessError):
                        self.cut()
                self.stop()
            self.process = self.first = None

    def cut(self):
        self.network.ip(f"link set link{self.number} down")

    def mend(self):
        self.network.ip(f"link set link{self.number} up")

    def open_disks(self):
        return [os.open(f"/proc/{self.first}/root/srv/{name}", os.O_RDONLY) for name in ("office", "disk")]

    def ask(self, *words, status=0, **options):
        """The standard output of a command that has to end with this status."""
        ran = self.run(*words, **options)
        if ran.returncode != status:
            wrong(f"machine {self.number}: {' '.join(map(str, words))}: status {ran.returncode}\n"
                  f"{ran.stdout}{ran.stderr}")
        return ran.stdout

    def shell(self, text, **options):
        return self.ask("bash", "-euo", "pipefail", "-c", text, **options)

    def give(self, text, file):
        """Puts a text into a file of the machine."""
        self.ask("tee", file, input=text)

    def connect(self, address, user, timeout):
        """A connection to an address, by a user, from this machine's network. The thread stays on it."""
        enter(self.space)
        LIBC.setfsuid(user)
        try:
            return socket.create_connection(address, timeout)
        finally:
            LIBC.setfsuid(0)


def power_cut(members, pause=0):
    """The power of all these fails, one a pause after the other: what was not synced is gone."""
    disks = [it.open_disks() for it in members]
    for at, group in enumerate(disks):
        time.sleep(pause if at else 0)
        for disk in group:
            fcntl.ioctl(disk, SHUTDOWN, NO_FLUSH)
    for disk in (disk for group in disks for disk in group):
        os.close(disk)
    for it in members:
        it.off()
