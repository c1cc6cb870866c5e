"""People who type lines at random."""
import os
import re

from line_templates import (
    CONTENTS, INSIDE, MODES, ODD_NAMES, OUTSIDE, RARE, SIMPLE, TEXTS, VARIABLES, WORDS)
from lines_for_dash import Lines, for_profile
from machine import BASHRC, STAFF, WATCHED

PEOPLE = {"alice": 1001, "bob": 1002, "carol": 1003, "mallory": 1004}
SPOOL = "/var/lib/retro/spool"


def quoted(choose, text):
    """A word of bash that stands for a text."""
    if re.fullmatch(r"[A-Za-z0-9_./:,+%-]+", text) and choose.random() < 0.9:
        return text
    if any(ord(character) < 32 and character not in "\n\t" or ord(character) == 127
           for character in text):
        return "$'" + "".join(
            f"\\{ord(character):03o}" if ord(character) < 32 or ord(character) == 127
            else "\\" + character if character in "'\\" else character for character in text) + "'"
    if choose.random() < 0.5:
        return "'" + text.replace("'", "'\\''") + "'"
    return '"' + re.sub(r'(["\\$`])', r"\\\1", text) + '"'


class Typist:
    """Chooses lines of a person, by what is there."""

    def __init__(self, choose, user, home):
        self.choose, self.user, self.home, self.cwd = choose, user, home, home
        self.lines, self.tree, self.last = Lines(choose), {}, {}

    def line(self):
        kind = self.choose.random()
        if kind < 0.36:
            return self.filled(INSIDE)
        if kind < 0.48:
            return for_profile(self.lines.line())
        return self.filled(RARE if kind > 0.99 else OUTSIDE)

    def simple(self):
        return self.expand(self.choose.choice(SIMPLE))

    def filled(self, table):
        return self.expand(self.choose.choice(table.strip("\n").split("\n")))

    def expand(self, template):
        self.last = {}
        return re.sub("@([a-zA-Z])", self.part, template.replace("¶", "\n"))

    def part(self, found):
        letter = found[1]
        if letter.isupper():
            return self.last.get(letter.lower(), found[0])
        makers = {
            "f": self.file, "n": self.target, "d": self.directory, "e": self.movable, "m": self.new,
            "w": lambda: self.choose.choice(WORDS), "v": lambda: self.choose.choice(VARIABLES),
            "t": lambda: quoted(self.choose, self.choose.choice(TEXTS)),
            "k": lambda: str(self.choose.randint(1, 9)), "p": lambda: self.choose.choice(MODES),
            "u": lambda: self.choose.choice([*PEOPLE, "root", "nosuch"])}
        if letter not in makers:
            return found[0]
        self.last[letter] = makers[letter]()
        return self.last[letter]

    # ---- paths

    def place(self):
        """A folder in which something is looked for."""
        return self.choose.choice(["/srv"] * 4 + ["/tmp"] * 2 + [self.home] * 3 + [self.cwd] * 3
                                  + ["/home", "/var/log", "/etc"])

    def among(self, kinds, right=4, spare=()):
        """A path at which something of these kinds is, to which the person mostly has a right."""
        place, lawful = self.place(), self.choose.random() < 0.8
        kept = "/tmp/pipes" if self.user else ("/etc", "/tmp/pipes")
        paths = [path for path, node in self.tree.items() if node.kind in kinds
                 and path.startswith(place) and path not in spare and not path.startswith(kept)
                 and (not lawful or self.may(node.sight, right))]
        return self.choose.choice(sorted(paths)) if paths else f"{self.home}/f"

    def may(self, sight, right):
        mode, user, group = sight[:3]
        shift = 6 if user == self.user else 3 if group in (self.user, STAFF) else 0
        return self.user == 0 or mode >> shift & right

    def spelled(self, path):
        """A word that names a path."""
        if self.cwd.startswith("/") and path.startswith(self.cwd.rstrip("/") + "/"):
            if self.choose.random() < 0.6:
                path = path[len(self.cwd.rstrip("/")) + 1:]
                if path.startswith("-") and self.choose.random() < 0.8:
                    path = f"./{path}"
        return quoted(self.choose, path)

    def file(self):
        kinds = ("file",) if self.choose.random() < 0.85 else ("file", "link", "dir")
        return self.spelled(self.among(kinds))

    def target(self):
        if self.choose.random() < 0.4:
            return self.spelled(self.among(("file",), 2))
        return self.new()

    def directory(self):
        kinds = ("dir",) if self.choose.random() < 0.9 else ("file", "link")
        return self.spelled(self.among(kinds))

    def movable(self):
        return self.spelled(self.among(("dir",), 2, WATCHED))

    def new(self):
        return self.spelled(f"{self.among(('dir',), 2)}/{self.name_for_new()}")

    def name_for_new(self):
        return self.choose.choice(ODD_NAMES if self.choose.random() < 0.12 else WORDS)


def world(choose):
    """What is in the machine's folders at first."""
    passwd = "root:x:0:0::/root:/bin/bash\n" + "".join(
        f"{name}:x:{number}:{number}::/home/{name}:/bin/bash\n" for name, number in PEOPLE.items())
    group = "root:x:0:\nstaff:x:2000:\n" + "".join(
        f"{name}:x:{number}:\n" for name, number in PEOPLE.items())
    nodes = [("/etc", None, 0o755, 0, 0), ("/etc/passwd", passwd.encode(), 0o644, 0, 0),
             ("/etc/group", group.encode(), 0o644, 0, 0),
             ("/etc/hosts", b"127.0.0.1 localhost\n", 0o644, 0, 0),
             ("/etc/bash.bashrc", BASHRC.encode(), 0o644, 0, 0), ("/etc/retro", None, 0o755, 0, 0),
             ("/etc/retro/recorder.conf", (
                 "__retro_command=(/usr/bin/timeout -k 0.1 1.8 /opt/retro/casebook observe "
                 f"{SPOOL})\n").encode(), 0o644, 0, 0),
             ("/etc/alternatives", None, 0o755, 0, 0),
             ("/etc/alternatives/awk", os.path.realpath("/usr/bin/awk"), None, 0, 0),
             ("/etc/app.conf", b"limit 3\n", 0o664, 0, STAFF),
             ("/tmp", None, 0o1777, 0, 0), ("/tmp/pipes", None, 0o777, 0, 0),
             ("/var/log", None, 0o775, 0, STAFF), ("/var/log/app.log", b"start\n", 0o664, 0, STAFF),
             ("/srv", None, choose.choice([0o2775, 0o777, 0o1777]), 0, STAFF),
             ("/srv/prices", b"apple 3\npear 5\n", 0o664, 1001, STAFF),
             ("/srv/stock", b"a,1\nb,2\nc,3\n", 0o644, 1002, STAFF),
             ("/srv/log", b"", 0o666, 0, STAFF), ("/srv/data", None, 0o2775, 1001, STAFF),
             ("/srv/pub", None, 0o777, 0, 0), ("/srv/own", None, 0o700, 1003, 1003),
             ("/srv/link", choose.choice(["prices", "data", "/etc/passwd", "none"]), None, 0, 0)]
    for folder in ("/srv/data", "/srv/pub", "/srv/own"):
        for name in choose.sample([*WORDS, *ODD_NAMES], 4):
            nodes.append((f"{folder}/{name}", choose.choice(CONTENTS),
                          choose.choice([0o664, 0o644, 0o600]),
                          choose.choice(list(PEOPLE.values())), STAFF))
    for name, number in PEOPLE.items():
        home = f"/home/{name}"
        nodes.append((home, None, choose.choice([0o755, 0o755, 0o700, 0o777]), number, number))
        for below in ("bin", "d", "d/z"):
            nodes.append((f"{home}/{below}", None, 0o755, number, number))
        for below in ("todo", "f", "g", "h", "d/x", "d/y", "bin/job.sh"):
            nodes.append((f"{home}/{below}", choose.choice(CONTENTS),
                          choose.choice([0o644, 0o600, 0o755]), number, number))
        settings = choose.choice([
            b"", b"h=$PWD\n", b"alias ll='ls -l'\nx=1 y='a  b'\n", b"umask 077; export v=5\n",
            b"f() { echo \"f $1\"; }\nset -o noclobber\n"])
        nodes.append((f"{home}/.bashrc", settings, 0o644, number, number))
    return nodes
