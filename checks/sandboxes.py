"""Runs lines by `recorder/sandbox.sh` where they can do no harm, should it have a hole. Belongs to
`checks/sandbox`.

All that isn't made here is read-only: no mount can be written to, but `/etc`, which is a copy,
`/home`, and a folder for files. No device is there but those that hold nothing, and their modes
can't be changed, since they are the machine's. Nobody can make one."""
import collections
import fcntl
import hashlib
import os
import shutil
import signal
import socket
import stat
import struct
import subprocess
import sys
import tempfile

from machine import Machine, mount
from terminals import stats

TOP = os.path.dirname(os.path.dirname(os.path.abspath(__file__)))
SANDBOX = f"{TOP}/recorder/sandbox.sh"
NUMBER = 4242                                   # of the user `rita` in the copy of /etc
SECRET = "nobody in a sandbox reads this"
PORT = 4242
DEVICES = ["null", "zero", "full", "random", "urandom", "tty"]
# Rights with which root could reach the disk or the kernel past all mounts.
DROPPED = ["mknod", "sys_rawio", "sys_module", "sys_boot", "sys_time", "linux_immutable", "syslog",
           "bpf", "perfmon", "mac_admin", "mac_override", "audit_control"]
SYSCTLS = ["kernel/pid_max", "kernel/hostname", "kernel/core_pattern", "kernel/shmall",
           "kernel/msgmni", "user/max_user_namespaces", "fs/file-max"]
Ran = collections.namedtuple("Ran", "status shown said spool")


def again(variable):
    """Calls the script again, where it has mounts, processes and a network of its own, and ends
    with its status. Returns the folder for files to the one that is called."""
    room = os.environ.get(variable)
    if room is not None:
        return room
    room = tempfile.mkdtemp(prefix="retro-sandbox-")
    signal.signal(signal.SIGTERM, lambda *_: sys.exit(1))
    try:
        sys.exit(subprocess.run([
            "unshare", "--mount", "--pid", "--net", "--ipc", "--uts", "--fork", "--kill-child",
            "--mount-proc", "setpriv", "--inh-caps=-all",
            "--bounding-set=" + ",".join(f"-{name}" for name in DROPPED),
            sys.executable, *sys.argv], check=False, env={**os.environ, variable: room}).returncode)
    finally:
        os.rmdir(room)


def prepare(room):
    """Makes everything read-only but what is made here."""
    mount("-t", "tmpfs", "-o", "size=2g,mode=755", "tmpfs", room)
    for name in ("dev/pts", "home", "etc", "canary", "spools"):
        os.makedirs(f"{room}/{name}")
    shutil.copytree("/etc", f"{room}/etc", symlinks=True, dirs_exist_ok=True)
    for name in DEVICES:
        open(f"{room}/dev/{name}", "wb").close()
        mount("--bind", f"/dev/{name}", f"{room}/dev/{name}")
        mount("-o", "remount,bind,ro", f"{room}/dev/{name}")        # they are the machine's own
    mount("-t", "devpts", "-o", "newinstance,ptmxmode=666", "devpts", f"{room}/dev/pts")
    for name, target in [("ptmx", "pts/ptmx"), ("fd", "/proc/self/fd"), ("stdin", "fd/0"),
                         ("stdout", "fd/1"), ("stderr", "fd/2")]:
        os.symlink(target, f"{room}/dev/{name}")
    told = subprocess.run(["findmnt", "-rno", "TARGET"], capture_output=True, check=True).stdout
    for at in told.decode("unicode_escape").split("\n"):
        if at and at != "/proc" and not at.startswith(room):
            subprocess.run(["mount", "-o", "remount,bind,ro", at], check=False,
                           stderr=subprocess.DEVNULL)
    for name in ("dev", "etc", "home"):
        mount("--rbind", f"{room}/{name}", f"/{name}")
    for path, text in [("/etc/passwd", f"rita:x:{NUMBER}:{NUMBER}::/home/rita:/bin/bash\n"),
                       ("/etc/group", f"rita:x:{NUMBER}:\n")]:
        with open(path, "a", encoding="utf-8") as file:
            file.write(text)
    for at in (f"{room}/canary", "/home/rita", "/home/other", "/etc/canary"):
        os.makedirs(at, exist_ok=True)
        with open(f"{at}/secret", "w", encoding="utf-8") as file:
            file.write(SECRET if at != "/etc/canary" else "this is in a system folder\n")
        os.chmod(f"{at}/secret", 0o666)
        os.chmod(at, 0o777)
    for at in (TOP, "/root", "/usr", "/"):
        refused(at, lambda at: open(f"{at}/.retro-check", "wb").close())
    for name in DEVICES:
        refused(f"/dev/{name}", lambda at: os.chmod(at, stat.S_IMODE(os.stat(at).st_mode)))
    with open("/proc/self/mountinfo", encoding="utf-8") as file:
        for row in file:
            fields = row.split()
            at, options, kind = fields[4], fields[5].split(","), fields[fields.index("-") + 1]
            if "ro" not in options and not at.startswith((room, "/etc", "/home", "/dev")) \
                    and (at, kind) != ("/proc", "proc"):
                sys.exit(f"{at} can be written to: nothing is tried")


def refused(at, change):
    """Makes sure that what is the machine's can't be changed."""
    try:
        change(at)
    except OSError:
        return
    sys.exit(f"{at} can be changed: nothing is tried")


class Canaries:
    """What is outside of each sandbox, and has to stay as it is."""

    def __init__(self, room):
        self.room = room
        self.processes = [subprocess.Popen(["sleep", "100000"], user=user, group=user,
                                           stdin=subprocess.DEVNULL) for user in (0, NUMBER)]
        with socket.socket() as any_socket:     # so that the network of this check has itself
            fcntl.ioctl(any_socket, 0x8914, struct.pack("16sH14x", b"lo", 0x41))
        self.listeners = [socket.create_server(("127.0.0.1", PORT)),
                          self.listener("\0retro-canary"),
                          self.listener(f"{room}/canary/socket")]
        self.before = self.look()

    @staticmethod
    def listener(name):
        made = socket.socket(socket.AF_UNIX)
        made.bind(name)
        made.listen()
        if name[0] == "/":
            os.chmod(name, 0o777)
        return made

    def look(self):
        """All that can be seen of the machine, by names."""
        seen = {}
        for top in (f"{self.room}/canary", "/etc", "/home", "/dev"):
            for path, names, files in os.walk(top):
                for at in [path, *(f"{path}/{name}" for name in names + files)]:
                    seen[at] = sight(at)
        with open("/proc/self/mountinfo", encoding="utf-8") as file:
            seen["mounts"] = file.read()
        for name in SYSCTLS:
            with open(f"/proc/sys/{name}", encoding="utf-8") as file:
                seen[name] = file.read()
        seen["processes"] = sorted(int(number) for number, _ in stats())
        seen["sleepers"] = [process.poll() for process in self.processes]
        seen["calls"] = [called(one) for one in self.listeners]
        return seen

    def differ(self):
        """What isn't as it was."""
        now = self.look()
        return [f"{name}: {str(now.get(name))[:300]}, not {str(self.before.get(name))[:300]}"
                for name in sorted(now.keys() | self.before.keys())
                if now.get(name) != self.before.get(name)]


def called(listener):
    """Whether somebody has connected."""
    listener.setblocking(False)
    try:
        listener.accept()
    except BlockingIOError:
        return False
    return True


def sight(at):
    there = os.lstat(at)
    data = None
    if stat.S_ISREG(there.st_mode):
        with open(at, "rb") as file:
            data = hashlib.sha256(file.read()).hexdigest()
    elif stat.S_ISLNK(there.st_mode):
        data = os.readlink(at)
    times = None if at.startswith("/dev") else (there.st_mtime_ns, there.st_ctime_ns)
    return there.st_mode, there.st_uid, there.st_gid, times, data


class Sandboxes:
    """Runs lines in sandboxes, each in a new one."""

    def __init__(self, room, casebook):
        self.room, self.casebook = room, casebook

    def words(self, line, tar, **options):
        """A folder for a call, with its files, and the words. Options are those of the script."""
        options = {"user": "rita", "directory": "/", "folder": ["/srv"], **options}
        at = tempfile.mkdtemp(dir=f"{self.room}/spools")
        texts = {"line": line, **{name: options.pop(name) for name in ("variables", "shell")
                                  if name in options}}
        for name, text in texts.items():
            with open(f"{at}/{name}", "wb") as file:
                file.write(os.fsencode(text) if isinstance(text, str) else text)
        words = ["bash", SANDBOX, "--casebook", self.casebook, "--tar", tar,
                 "--spool", f"{at}/spool", "--output", f"{at}/output"]
        for name in texts:
            words += [f"--{name}", f"{at}/{name}"]
        for folder in options.pop("folder"):
            words += ["--folder", folder]
        for name, value in options.items():
            words += [f"--{name}", str(value)]
        return at, words

    def run(self, line, tar, **options):
        """Runs a line, and returns its status, what it showed, what was said, and its spool, or
        `None`."""
        at, words = self.words(line, tar, **options)
        called_ = subprocess.run(words, stdin=subprocess.DEVNULL, capture_output=True, check=False,
                                 timeout=120)
        shown = b""
        if os.path.exists(f"{at}/output"):
            with open(f"{at}/output", "rb") as file:
                shown = file.read()
        spool = f"{at}/spool" if os.path.exists(f"{at}/spool") else None
        return Ran(called_.returncode, shown, called_.stderr.decode(errors="replace"), spool)


class PlainMachine(Machine):
    """A machine that is a folder, made by somebody who can't make devices."""

    def device(self, path, number):
        open(self.at + path, "wb").close()
        mount("--bind", path, self.at + path)
        mount("-o", "remount,bind,ro", self.at + path)
