"""A Debian system of its own for tools/check_install and tools/check_machines, in which nothing of this computer is
changed. Its files are this computer's, seen through an overlay that memory or a disk of its own holds; it has
processes, a network without a way out, and a systemd of its own. It is gone when the script ends. It is no script of
its own."""
import contextlib
import ctypes
import os
import shutil
import signal
import subprocess
import time
from pathlib import Path

WAIT = 120  # seconds for one command
COMMANDS = ("apt-get", "chroot", "dpkg-deb", "mount", "nsenter", "pivot_root", "unshare")
SYSTEMD = "/lib/systemd/systemd"
ENVIRONMENT = {"PATH": "/usr/local/sbin:/usr/local/bin:/usr/sbin:/usr/bin:/sbin:/bin", "HOME": "/root",
               "LANG": "C.UTF-8", "DEBIAN_FRONTEND": "noninteractive", "container": "vend", "PAGER": "cat"}
# Its parts of the kernel's: mounts, processes, network, names of the computer, messages, groups of processes.
OWN = ("--mount", "--pid", "--net", "--uts", "--ipc", "--cgroup")
BOOT = r"""
set -eu
room=$1
image=$2
mount --make-rprivate /
if [ "$image" ]; then
    mount -o loop "$image" "$room/disk"
else
    mount -t tmpfs -o mode=755 tmpfs "$room/disk"
fi
is_new=
[ -d "$room/disk/upper" ] || is_new=yes
mkdir -p "$room/disk/upper" "$room/disk/work" "$room/disk/root"
root=$room/disk/root
mount -t overlay -o "lowerdir=/,upperdir=$room/disk/upper,workdir=$room/disk/work" overlay "$root"

if [ "$is_new" ]; then
# As a Debian that was just installed: it starts what it installs, and keeps manual pages.
rm -f "$root/usr/sbin/policy-rc.d" "$root/etc/fstab" "$root"/etc/dpkg/dpkg.cfg.d/* "$root"/etc/apt/apt.conf.d/docker-*
# An index of all manual pages would take longer than all else, and man does without.
rm -f "$root/var/lib/man-db/auto-update"
rm -rf "$root"/etc/systemd/system/*.wants "$root"/lib/systemd/system/*.target.wants
echo 'APT::Get::Assume-Yes "true";' >"$root/etc/apt/apt.conf.d/99own"
mkdir -p "$root/var/cache/apt/archives"
cp -r "$room/archives/." "$root/var/cache/apt/archives/"
cp -p "$room"/*pkgcache.bin "$root/var/cache/apt/"
[ ! -d "$room/lists" ] || cp -rT "$room/lists" "$root/var/lib/apt/lists"
cp -rT "$room/stage" "$root/srv/stage"
cat >"$root/etc/systemd/system/own.target" <<'END'
[Unit]
Description=A system of its own
Requires=basic.target systemd-journald.service
Wants=systemd-journald.socket systemd-journald-dev-log.socket
After=basic.target systemd-journald.service
AllowIsolate=yes
END
fi
# The disk itself, beside what is seen of it through the overlay, and a second one, with the options of its fstab.
if [ "$image" ]; then
    mkdir -p "$root/srv/disk" "$root/srv/office"
    mount --bind "$room/disk" "$root/srv/disk"
    [ -e "$root/etc/fstab" ] || echo '/dev/vdb /srv/office ext4 defaults 0 2' >"$root/etc/fstab"
    options=$(awk '$2 == "/srv/office" { print $4 }' "$root/etc/fstab")
    mount -o "loop,$options" "$room/office.img" "$root/srv/office"
fi

# What the kernel shows, of which nothing can be changed from in there.
mount -t proc proc "$root/proc"
mount --bind "$root/proc/sys" "$root/proc/sys"
mount -o remount,bind,ro "$root/proc/sys"
mount -t sysfs -o ro sysfs "$root/sys"
mount -t cgroup2 cgroup2 "$root/sys/fs/cgroup"
mount -t tmpfs -o mode=755 tmpfs "$root/run"
mount -t tmpfs -o mode=755 tmpfs "$root/dev"
for it in 'null 1 3' 'zero 1 5' 'full 1 7' 'random 1 8' 'urandom 1 9' 'tty 5 0' 'fuse 10 229'; do
    set -- $it
    mknod -m 666 "$root/dev/$1" c "$2" "$3"
done
mkdir "$root/dev/pts" "$root/dev/shm" "$root/dev/mqueue"
mount -t devpts -o newinstance,mode=620,ptmxmode=666 devpts "$root/dev/pts"
mount -t tmpfs -o mode=1777 tmpfs "$root/dev/shm"
ln -s pts/ptmx "$root/dev/ptmx"
ln -s /proc/self/fd "$root/dev/fd"

cd "$root"
mkdir -p srv/before
pivot_root . srv/before
umount -l /srv/before
exec env -i container=vend PATH=/usr/sbin:/usr/bin:/sbin:/bin /lib/systemd/systemd --unit=own.target --log-level=warning
"""


def lacking():
    """What this computer lacks for a system of its own, a sentence each."""
    missing = [f"{name} is missing" for name in COMMANDS if not shutil.which(name)]
    if not Path(SYSTEMD).exists():
        missing.append("systemd is missing: install Debian's systemd")
    if os.geteuid() != 0:
        missing.append("only root can have a system of its own")
    elif group_of_this() is None:
        missing.append("there is no place for a group of processes of its own: no cgroup2 that can be written")
    return missing


def group_of_this():
    """The folder of the group of processes that this script is in."""
    mounts = [line.split() for line in Path("/proc/mounts").read_text().splitlines()]
    places = [words[1] for words in mounts if words[2] == "cgroup2" and "rw" in words[3].split(",")]
    own = [line[3:] for line in Path("/proc/self/cgroup").read_text().splitlines() if line.startswith("0::")]
    return Path(places[0] + own[0]) if places and own else None


def die_with_parent():
    ctypes.CDLL(None).prctl(1, signal.SIGKILL)


class Machine:
    """The system. `stage` is a folder that it gets as /srv/stage; `packages` names what it has to be able to
    install without a network. With the image of a disk, ext4, it can be started again after a stop; office.img in its
    room is a second disk, at /srv/office."""

    def __init__(self, room, stage, *packages, name="check-install", image=""):
        self.room = Path(room)
        self.stage = Path(stage)
        self.name = name
        self.image = image
        self.group = None
        self.process = None
        self.first = None
        self.fetch(*packages)

    def fetch(self, *packages):
        """Fetches what the packages depend on, if this computer has not installed it, and installs nothing."""
        archives = self.room / "archives"
        (archives / "partial").mkdir(parents=True)
        options = ["-o", f"Dir::Cache={self.room}", "-o", f"Dir::Cache::archives={archives}",
                   "-o", "Dir::Cache::pkgcache=pkgcache.bin", "-o", "Dir::Cache::srcpkgcache=srcpkgcache.bin",
                   "-o", "Debug::NoLocking=true", "-o", "APT::Sandbox::User=root", "-o", "Acquire::Retries=2"]
        fetch = ["--download-only", "--yes", "install", *map(str, packages)]
        ran = self.apt(options, fetch)
        if ran.returncode != 0:
            # The lists of this computer may be old, or may not be there.
            (self.room / "lists" / "partial").mkdir(parents=True)
            options += ["-o", f"Dir::State::lists={self.room}/lists"]
            self.apt(options, ["update"])
            ran = self.apt(options, fetch)
        if ran.returncode != 0:
            raise SystemExit("apt-get cannot fetch what the package depends on. Install nginx-light, nftables and "
                             f"openssl, or give this computer a network:\n{ran.stderr}")

    @staticmethod
    def apt(options, words):
        return subprocess.run(["apt-get", *options, *words], capture_output=True, text=True,
                              stdin=subprocess.DEVNULL, timeout=2 * WAIT,
                              env={**os.environ, "DEBIAN_FRONTEND": "noninteractive"})

    def start(self):
        (self.room / "disk").mkdir(exist_ok=True)
        if not (self.room / "stage").exists():
            shutil.move(self.stage, self.room / "stage")
        self.group = group_of_this() / f"{self.name}-{os.getpid()}"
        self.group.mkdir(exist_ok=True)

        def prepare():
            die_with_parent()
            (self.group / "cgroup.procs").write_text(str(os.getpid()))

        log = open(self.room / "boot.log", "wb")
        words = ["unshare", *OWN, "--fork", "--kill-child", "bash", "-c", BOOT, "boot", str(self.room),
                 str(self.image)]
        self.process = subprocess.Popen(words, stdin=subprocess.DEVNULL, stdout=log, stderr=log,
                                        preexec_fn=prepare)
        until = time.monotonic() + WAIT
        while not self.is_up():
            if self.process.poll() is not None or time.monotonic() > until:
                raise SystemExit(f"the system of its own does not start:\n{(self.room / 'boot.log').read_text()}")
            time.sleep(0.1)

    def is_up(self):
        children = Path(f"/proc/{self.process.pid}/task/{self.process.pid}/children").read_text().split()
        if not children or Path(f"/proc/{children[0]}/comm").read_text() != "systemd\n":
            return False
        self.first = children[0]
        return self.run("systemctl", "is-active", "--quiet", "own.target").returncode == 0

    def stop(self):
        if self.process:
            # With its first process all others go.
            self.process.kill()
            self.process.wait()
        if self.group:
            until = time.monotonic() + 10
            while self.group.exists() and time.monotonic() < until:
                for folder, _, _ in os.walk(self.group, topdown=False):
                    with contextlib.suppress(OSError):
                        os.rmdir(folder)
                time.sleep(0.05)

    def words(self, *words):
        """The words that run a command in there."""
        return ["nsenter", "--target", self.first, "--mount", "--pid", "--net", "--uts", "--ipc", "--cgroup",
                "--", "env", "--chdir=/srv/stage", *map(str, words)]

    def run(self, *words, text=True, wait=WAIT, **options):
        """Runs a command in there, for so long at the most: status 124 tells that it had not ended."""
        options = options if "input" in options else {"stdin": subprocess.DEVNULL}
        words = self.words("timeout", "--kill-after=5", str(wait), *words)
        return subprocess.run(words, capture_output=True, text=text, env=ENVIRONMENT, **options)

    def begin(self, *words, **options):
        """A command that goes on in there."""
        return subprocess.Popen(self.words(*words), env=ENVIRONMENT, preexec_fn=die_with_parent, **options)
