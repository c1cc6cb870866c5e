"""Interactive shells on terminals, as people type into them."""
import fcntl
import os
import pty
import re
import select
import signal
import struct
import termios
import time

from machine import STAFF

READY = re.compile(rb"<ready (\d+)> ")
MORE = b"<more> "
READ_CALL = {"x86_64": "0", "aarch64": "63"}[os.uname().machine]


class Ended(Exception):
    """The shell of a terminal has ended."""


class Terminal:
    """An interactive bash of a person, on a terminal of its own."""

    def __init__(self, machine, user, home, choose):
        self.machine, self.choose = machine, choose
        self.process, self.end = pty.fork()
        if self.process == 0:
            try:
                os.chroot(machine.at)
                os.setgroups([STAFF])
                os.setgid(user)
                os.setuid(user)
                os.chdir("/")
                try:
                    os.chdir(home)
                except OSError:
                    pass
                os.umask(0o002)
                os.closerange(3, 1024)
                os.execve("/bin/bash", ["bash", "-i"], {
                    "PATH": "/usr/bin:/bin", "HOME": home, "TERM": "dumb", "LANG": "C.UTF-8",
                    "SHELL": "/bin/bash"})
            finally:
                os._exit(1)
        os.set_inheritable(self.end, False)
        fcntl.ioctl(self.end, termios.TIOCSWINSZ, struct.pack("HHHH", 50, 500, 0, 0))
        self.status, self.shown = None, b""

    def send(self, text):
        """Types a text, of which a screen is expected."""
        self.shown, rest = b"", os.fsencode(text) if isinstance(text, str) else text
        while rest:
            rest = rest[os.write(self.end, rest[:1000]):]

    def read(self, seconds):
        """Reads what is shown within some time, and returns whether that is anything."""
        if not select.select([self.end], [], [], seconds)[0]:
            if self.has_ended():
                raise Ended(self.shown)
            return False
        try:
            data = os.read(self.end, 65536)
        except OSError:
            data = b""
        if not data:
            raise Ended(self.shown)
        self.shown += data
        return True

    def is_ready(self, prompts=1):
        """Whether so many prompts are shown, the last one at the end."""
        last = READY.search(self.shown, max(0, len(self.shown) - 12))
        if not last or last.end() < len(self.shown) or len(READY.findall(self.shown)) < prompts:
            return False
        self.status = int(last[1])
        return True

    def screen(self, prompts=1, more=False, limit=8):
        """Waits for so many prompts, or for one that asks for more rows of a line. A line that
        reads the terminal gets an answer, and one that takes longer is interrupted."""
        until = time.monotonic() + limit
        while not self.is_ready(prompts) and not (more and self.shown.endswith(MORE)):
            if self.read(0.05):
                continue
            if time.monotonic() > until:
                if limit == 0:
                    raise TimeoutError(self.shown[-300:])
                os.write(self.end, b"\3")
                until, limit = time.monotonic() + 10, 0
            elif self.is_reading():
                asked = self.shown.endswith(b"? ")
                os.write(self.end, self.choose.choice([b"y\n", b"n\n"]) if asked else b"\4")

    def type(self, text):
        """Types a line, row by row, as long as the shell asks for more. Returns what is shown."""
        shown = b""
        for row in text.split("\n"):
            self.send(row + "\n")
            self.screen(more=True)
            shown += self.shown
            if not self.shown.endswith(MORE):
                return shown
        self.send(b"\3")
        self.screen()
        return shown + self.shown

    def has_ended(self):
        if self.process and os.waitpid(self.process, os.WNOHANG)[0]:
            self.process = None
        return self.process is None

    def is_reading(self):
        """Whether a process in the foreground waits for the terminal. The shell at its prompt
        doesn't: it waits for a signal, too."""
        group = self.foreground()
        for number, fields in stats():
            if fields[2] != str(group):
                continue
            try:
                with open(f"/proc/{number}/syscall", encoding="ascii") as file:
                    call = file.read().split()
                if call[0] == READ_CALL and "pts/" in os.readlink(
                        f"/proc/{number}/fd/{int(call[1], 16)}"):
                    return True
            except (OSError, IndexError, ValueError):
                pass
        return False

    def foreground(self):
        """The process group in the foreground: at a prompt the number of the shell."""
        return os.tcgetpgrp(self.end)

    def close(self):
        """Ends the session as a lost connection does, and waits for all that it had."""
        leader = self.process
        if self.end is not None:
            os.close(self.end)
            self.end = None
        if self.process:
            os.waitpid(self.process, 0)
            self.process = None
        until = time.monotonic() + 3
        while leader:
            left = [int(number) for number, fields in stats() if fields[3] == str(leader)]
            if not left:
                return
            if time.monotonic() > until:
                for number in left:
                    os.kill(number, signal.SIGKILL)
            time.sleep(0.005)


def stats():
    """The number of each process that runs, and its state, parent, group, session and so on. Those
    that have ended are reaped here, if nobody else does."""
    for number in filter(str.isdigit, os.listdir("/proc")):
        try:
            with open(f"/proc/{number}/stat", encoding="utf-8", errors="replace") as file:
                fields = file.read().rpartition(")")[2].split()
        except OSError:
            continue
        if fields[0] != "Z":
            yield number, fields
        elif fields[1] == "1" and fields[3] != number:
            os.waitpid(int(number), os.WNOHANG)
