"""A Debian in a folder that runs with its own systemd, in namespaces of its own but for the network. It needs root, and a kernel with cgroup2."""
import os
import pathlib
import subprocess
import time

PATH = "/usr/sbin:/usr/bin:/sbin:/bin"
# runs as the first process of the new namespaces, and becomes systemd. What it mounts goes with them
BOOT = """
set -e
mount --make-rprivate /
mount --bind "$ROOT" "$ROOT"
cd "$ROOT"
mount -t proc proc proc
mount --bind proc/sys proc/sys
mount -o remount,bind,ro proc/sys
mount -t sysfs -o ro sysfs sys
mount -t cgroup2 cgroup2 sys/fs/cgroup
mount -t tmpfs tmpfs run
mount -t tmpfs -o mode=755 tmpfs dev
for it in "null 1 3" "zero 1 5" "full 1 7" "random 1 8" "urandom 1 9" "tty 5 0"; do set -- $it; mknod -m 666 "dev/$1" c "$2" "$3"; done
mkdir dev/pts dev/shm
mount -t devpts -o newinstance,ptmxmode=0666 devpts dev/pts
ln -s pts/ptmx dev/ptmx
ln -sf /dev/null etc/systemd/system/timers.target
mkdir before
pivot_root . before
umount -l /before
exec env -i container=other PATH=%s /lib/systemd/systemd --system --show-status=0 </dev/null >/dev/null 2>&1
""" % PATH


def cgroups() -> pathlib.Path:
    """Where the groups of processes are mounted. Raises OSError."""
    for line in pathlib.Path("/proc/self/mounts").read_text().splitlines():
        if line.split()[2] == "cgroup2":
            return pathlib.Path(line.split()[1])
    raise OSError("no cgroup2 is mounted")


class Machine:
    """A system that runs."""

    def __init__(self, root: pathlib.Path, patience: float):
        self.root, self.patience = root, patience
        self.group = cgroups() / f"viewd-{os.getpid()}"
        self.group.mkdir()
        words = 'echo $$ >"$GROUP/cgroup.procs"; exec setpriv --pdeathsig KILL unshare --mount --pid --fork --uts --ipc --cgroup --kill-child sh -c "$BOOT"'
        env = {"PATH": PATH, "BOOT": BOOT, "ROOT": str(root), "GROUP": str(self.group)}
        self.outside = subprocess.Popen(["sh", "-c", words], env=env, stdin=subprocess.DEVNULL)
        end = time.monotonic() + patience
        while self.ask("systemctl", "is-system-running", "--wait").stdout.strip() not in (b"running", b"degraded"):
            if self.outside.poll() is not None or time.monotonic() > end:
                self.end()
                raise OSError("no systemd runs in a folder here")
            time.sleep(0.2)

    def first(self) -> str | None:
        """The number of its first process, as this system counts."""
        children = pathlib.Path(f"/proc/{self.outside.pid}/task/{self.outside.pid}/children")
        found = children.read_text().split() if children.exists() else []
        return found[0] if found else None

    def ask(self, *words: str, user: str | None = None) -> "subprocess.CompletedProcess[bytes]":
        """Runs a command inside."""
        first = self.first()
        if not first:
            return subprocess.CompletedProcess(words, 1, b"")
        enter = ["nsenter", "--target", first, "--mount", "--pid", "--ipc", "--uts", "--cgroup", "--root", "--wdns=/", "env", "-i", f"PATH={PATH}"]
        env = ["LC_ALL=C.UTF-8", "DEBIAN_FRONTEND=noninteractive", "HOME=/root"]
        become = ["setpriv", f"--reuid={user}", f"--regid={user}", "--clear-groups"] if user else []
        return subprocess.run([*enter, *env, *become, *words], stdin=subprocess.DEVNULL, stdout=subprocess.PIPE, stderr=subprocess.STDOUT)

    def run(self, *words: str, user: str | None = None, status: int = 0) -> str:
        """What a command says, which has to end with this status."""
        ran = self.ask(*words, user=user)
        said = ran.stdout.decode()
        assert ran.returncode == status, f"{' '.join(words)} ends with {ran.returncode}: {said[-2000:]}"
        return said

    def end(self) -> None:
        """Ends all that runs in it."""
        self.outside.kill()
        self.outside.wait(self.patience)
        end = time.monotonic() + self.patience
        while self.group.exists() and time.monotonic() < end:
            for it in sorted(self.group.rglob("*"), reverse=True):
                if it.is_dir():
                    try:
                        it.rmdir()
                    except OSError:
                        pass
            try:
                self.group.rmdir()
            except OSError:
                time.sleep(0.1)
