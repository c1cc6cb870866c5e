"""A machine that is a folder: with users, permissions and watched folders."""
import collections
import os
import signal
import stat
import subprocess

STAFF = 2000                                    # a group in which everybody is
WATCHED = ["/etc", "/home", "/srv", "/tmp", "/var/log"]
LIMIT = 1_048_576                               # bytes of a file that is kept

# As Debian's, with prompts that are easy to see, a terminal that doesn't echo, and a witness of
# what the shell has at each prompt.
BASHRC = r"""[ -z "$PS1" ] && return
PS1='<ready $?> ' PS2='<more> '
stty -echo
bind 'set disable-completion on' 2> /dev/null
PROMPT_COMMAND='(set +aefux; builtin echo "$PWD"; builtin declare -p) 2> /dev/null \
    >| "/run/witness/$$"'
. /opt/retro/hook.sh
"""


class Machine:
    """A folder with all that interactive bash needs, and folders that are watched."""

    def __init__(self, room, nodes):
        self.at, self.quiet = f"{room}/machine", f"{room}/quiet"
        for at in (self.at, self.quiet):
            os.makedirs(at, exist_ok=True)
        mount("-t", "tmpfs", "-o", "strictatime,size=48m,mode=755", "tmpfs", self.at)
        for name in ("dev/pts", "usr", "proc", "run", "root", "opt/retro", "var/lib/retro",
                     *(path[1:] for path in WATCHED)):
            os.makedirs(f"{self.at}/{name}")
        for name in ("run", "var/lib/retro"):       # people can fill the other one
            mount("-t", "tmpfs", "-o", "mode=755", "tmpfs", f"{self.at}/{name}")
        for name in ("usr", "opt/retro", "proc", "dev/pts"):
            mount("--bind", f"{room if name == 'opt/retro' else ''}/{name}", f"{self.at}/{name}")
        mount("-o", "remount,bind,ro", f"{self.at}/usr")
        for name, minor in [("null", 3), ("zero", 5), ("full", 7)]:
            self.device(f"/dev/{name}", os.makedev(1, minor))
        self.device("/dev/tty", os.makedev(5, 0))
        os.symlink("/proc/self/fd", f"{self.at}/dev/fd")
        for name, target in [("stdin", "fd/0"), ("stdout", "fd/1"), ("stderr", "fd/2")]:
            os.symlink(target, f"{self.at}/dev/{name}")
        for name in ("bin", "lib", "lib64", "sbin"):
            os.symlink(f"usr/{name}", f"{self.at}/{name}")
        for name in ("witness", "gates"):
            os.mkdir(f"{self.at}/run/{name}")
            os.chmod(f"{self.at}/run/{name}", 0o1777)
        self.gates = 0
        for path, data, mode, user, group in nodes:
            self.make(path, data, mode, user, group)
        # A second mount that sets no times of reading.
        mount("--bind", self.at, self.quiet)
        mount("-o", "remount,bind,noatime", self.quiet)

    def device(self, path, number):
        os.mknod(self.at + path, 0o666 | stat.S_IFCHR, number)
        os.chmod(self.at + path, 0o666)

    def make(self, path, data, mode, user, group):
        """Makes a directory, a link (its target is a text) or a file."""
        at = self.at + path
        if data is None:
            os.makedirs(at, exist_ok=True)
        elif isinstance(data, str):
            os.symlink(data, at)
        else:
            with open(at, "wb") as file:
                file.write(data)
        os.chown(at, user, group, follow_symlinks=False)
        if not isinstance(data, str):
            os.chmod(at, mode)

    def run(self, *words, user=0, **options):
        """Runs a command in the machine, outside of all sessions."""
        return subprocess.run(
            ["/usr/sbin/chroot", f"--userspec={user}:{user}", f"--groups={STAFF}", self.at, *words],
            env={"PATH": "/usr/bin:/bin", "HOME": "/", "LANG": "C.UTF-8"}, check=False,
            stdin=subprocess.DEVNULL, capture_output=True, timeout=60, **options)

    def gate(self):
        """The path of a new pipe, on which lines wait."""
        self.gates += 1
        path = f"/run/gates/{self.gates}"
        os.mkfifo(self.at + path)
        os.chmod(self.at + path, 0o666)
        return path

    def processes(self):
        """The numbers of all processes in the machine."""
        for number in filter(str.isdigit, os.listdir("/proc")):
            try:
                if os.readlink(f"/proc/{number}/root") == self.at:
                    yield int(number)
            except OSError:
                pass

    def copy(self):
        """What the watched folders hold, by paths, without those whose names aren't UTF-8."""
        found = {}
        for path in WATCHED:
            try:
                above = os.open(self.quiet + os.path.dirname(path), os.O_RDONLY | os.O_DIRECTORY)
            except OSError:
                continue
            try:
                look(found, above, os.path.basename(path), path)
            finally:
                os.close(above)
        return found

    def close(self):
        for number in self.processes():
            try:
                os.kill(number, signal.SIGKILL)
            except OSError:
                pass
        for at in (self.quiet, *(f"{self.at}/{name}" for name in (
                "dev/pts", "proc", "opt/retro", "usr", "var/lib/retro", "run")), self.at):
            subprocess.run(["umount", "--lazy", at], check=True)


def mount(*words):
    subprocess.run(["mount", *words], check=True)


Node = collections.namedtuple("Node", "kind sight data")


def kind_of(mode):
    kinds = {stat.S_IFDIR: "dir", stat.S_IFREG: "file", stat.S_IFLNK: "link"}
    return kinds.get(stat.S_IFMT(mode), "other")


def look(found, above, name, path):
    """Finds what is at a name of an open directory, and below."""
    there = os.stat(name, dir_fd=above, follow_symlinks=False)
    times = [part for at in (there.st_atime_ns, there.st_mtime_ns, there.st_ctime_ns)
             for part in divmod(at, 10**9)]
    sight = [stat.S_IMODE(there.st_mode), there.st_uid, there.st_gid, there.st_size, there.st_ino,
             *times]
    kind, data, names = kind_of(there.st_mode), None, []
    if kind == "link":
        data = os.fsencode(os.readlink(name, dir_fd=above))
    elif kind == "file" and there.st_size <= LIMIT:
        with open(os.open(name, os.O_RDONLY | os.O_NOFOLLOW, dir_fd=above), "rb") as file:
            data = file.read()
    found[path] = Node(kind, sight, data)
    if kind == "dir":
        at = os.open(name, os.O_RDONLY | os.O_DIRECTORY | os.O_NOFOLLOW, dir_fd=above)
        for below in os.listdir(at):
            if is_utf8(os.fsencode(below)):
                look(found, at, below, f"{path}/{below}")
        os.close(at)


def is_utf8(data):
    try:
        data.decode()
    except UnicodeDecodeError:
        return False
    return True
