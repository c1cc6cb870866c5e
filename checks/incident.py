"""An incident: what people type on a machine, compared with what was kept of it."""
import bisect
import collections
import os
import random
import re
import time

from line_templates import LEAVING
from machine import Machine, WATCHED, is_utf8
from read_log import Wanted, align, differences, is_watched, told_lines
from read_spool import (
    DIRECTORY, Differs, NotTaken, Spool, rows_of_variables, seen_lines, tree_of, values_of)
from terminals import Ended, Terminal
from typists import PEOPLE, SPOOL, Typist, world


Moment = collections.namedtuple("Moment", "count copy line")
Typed = collections.namedtuple("Typed", "number who text")
Witness = collections.namedtuple("Witness", "cwd variables")


class Incident:
    """An incident as it is played, and what differs."""

    def __init__(self, room, seed, lines):
        self.choose, self.seed, self.lines = random.Random(seed), seed, lines
        self.homes = {name: (number, f"/home/{name}") for name, number in PEOPLE.items()}
        if self.choose.random() < 0.25:
            del self.homes["carol"]
            self.homes["root"] = (0, "/root")
        self.machine = Machine(room, world(self.choose))
        self.faults, self.moments, self.witnesses, self.typed = [], [], {}, []
        self.typists = {name: Typist(self.choose, *home) for name, home in self.homes.items()}
        self.terminals = {}

    def fault(self, what, path="", line=None):
        line = line or (self.typed[-1] if self.typed else None)
        self.faults.append((line, path, what))

    def start(self):
        made = self.machine.run("/opt/retro/casebook", "observe", "--start", SPOOL, *WATCHED)
        if made.returncode:
            raise Differs(f"observe --start: {made.stderr.decode()}")
        self.spool = Spool(self.machine.at + SPOOL)
        self.settle()
        for name in self.homes:
            self.login(name)

    def login(self, name):
        user, home = self.homes[name]
        self.terminals[name] = Terminal(self.machine, user, home, self.choose)
        try:
            self.terminals[name].screen()
        except Ended as fault:
            raise Differs(f"no shell of {name}: {fault}") from fault
        self.settle(name)

    # ---- after a line

    def settle(self, name=None, text=None):
        """Compares what the spool says with the folders, and of a person's session with what its
        shell says. Returns the new records."""
        if name and b"isn't recorded" in self.terminals[name].shown:
            raise NotTaken("the shell says that it isn't recorded")
        records = self.spool.more()
        copy = self.machine.copy()
        for typist in self.typists.values():
            typist.tree = copy
        if records or not self.moments:
            for path, what in self.spool.compare(copy):
                self.fault(what, path)
            line = self.typed[-1] if self.typed else None
            self.moments.append(Moment(len(self.spool.observations), copy, line))
        if name:
            self.settle_session(name, records, text)
        return records

    def settle_session(self, name, records, text):
        """Compares the last record of a person's shell with what the shell says."""
        terminal = self.terminals[name]
        try:
            with open(f"{self.machine.at}/run/witness/{terminal.foreground()}", "rb") as file:
                cwd, _, declared = file.read().partition(b"\ndeclare ")
        except OSError:
            self.fault("the shell says nothing")
            return
        rows = rows_of_variables(b"declare " + declared)
        self.typists[name].cwd = os.fsdecode(cwd) if is_utf8(cwd) else "/none"
        last = [record for record in records if record[0] in (b"start", b"end")][-1:]
        ends = f"-{terminal.foreground()}".encode()
        if not last or not last[0][1].endswith(ends):
            return
        kind, session, _, user, directory, *rest = last[0]
        at = len(self.spool.observations) - 1 - records[::-1].index(last[0])
        self.witnesses[at] = Witness(cwd, values_of(rows))
        if int(user) != self.homes[name][0]:
            self.fault(f"user {user} in the record")
        if directory != cwd:
            self.fault(f"directory {directory!r} in the record, not {cwd!r}")
        if kind == b"end" and int(rest[1]) != terminal.status:
            self.fault(f"status {rest[1]} in the record, not {terminal.status}")
        said = self.said_variables(session)
        for variable in sorted(said.keys() | rows.keys()):
            if said.get(variable) != rows.get(variable):
                self.fault(f"variable {variable} in the record {str(said.get(variable))[:100]}, "
                           f"not {str(rows.get(variable))[:100]}")
        plain = [record[:2] for record in records] == [[b"begin", session], [b"end", session]]
        if text is not None and plain and rest[3] == b"shown" and "!" not in text:
            if squeezed(rest[4].decode()) != squeezed(text):
                self.fault(f"text {rest[4]!r} in the record")

    def said_variables(self, session):
        """The variables of a session by its last record that has them."""
        for observation in reversed(self.spool.observations):
            record = observation.record
            if record[1] == session and record[0] in (b"start", b"end") and record[10] == b"new":
                return rows_of_variables(record[11])
        return {}

    # ---- lines

    def note(self, name, text):
        self.typed.append(Typed(len(self.typed) + 1, name, text))
        return text

    def type(self, name, text):
        """Types a line, and compares what it left."""
        self.note(name, text)
        terminal = self.terminals[name]
        try:
            shown = terminal.type(text)
        except Ended:
            self.again(name)
            return
        kinds = [record[0] for record in self.settle(name, text)]
        kinds = kinds[max([at for at, kind in enumerate(kinds) if kind == b"begin"], default=0):]
        if kinds in ([b"begin", b"end"], [b"begin", b"start"], [b"begin", b"exit", b"end"]):
            return
        if kinds or not re.fullmatch(r"\s*(#.*)?", text) and not re.search(
                b"event not found|syntax error|unexpected|<more> ", shown):
            self.fault(f"records {kinds}, and the terminal shows {shown[-200:]!r}")

    def again(self, name):
        """A new session in the place of one that ended."""
        self.terminals[name].close()
        self.login(name)

    def some(self):
        return self.choose.choice(list(self.homes))

    def ordinary(self):
        name = self.some()
        self.type(name, self.typists[name].line())

    def opened(self, gate, name=None):
        """Opens a gate once a line waits at it, or returns `None` if it never does: the terminal
        shows a prompt, or its shell has ended."""
        until = time.monotonic() + 8
        while time.monotonic() < until:
            try:
                return os.open(self.machine.at + gate, os.O_WRONLY | os.O_NONBLOCK)
            except OSError:
                time.sleep(0.002)
            try:
                if name and (self.terminals[name].is_ready() or self.terminals[name].read(0)
                             and self.terminals[name].is_ready()):
                    return None
            except Ended:
                return None
        return None

    def overlap(self):
        """A line during which others are typed."""
        name = self.some()
        typist, gate = self.typists[name], self.machine.gate()
        text = f"{typist.simple()}; read -r gate < {gate}; {typist.simple()}"
        self.note(name, text)
        self.terminals[name].send(text + "\n")
        opened = self.opened(gate, name)
        self.spool.more()
        for _ in range(self.choose.randint(1, 3)):
            other = self.choose.choice([one for one in self.homes if one != name])
            self.type(other, self.typists[other].line())
        if opened is not None:
            os.write(opened, b"on\n")
            os.close(opened)
        try:
            self.terminals[name].screen()
        except Ended:
            self.again(name)
            return
        self.settle(name)

    def background(self):
        """A change that a job makes after its line, which is nobody's."""
        name = self.some()
        typist, gate = self.typists[name], self.machine.gate()
        done = f"{gate}.done"
        self.type(name, f"(trap ': >| {done}' EXIT; read -r gate < {gate}; {typist.simple()}) &")
        opened = self.opened(gate)
        if opened is not None:
            os.write(opened, b"on\n")
            os.close(opened)
            until = time.monotonic() + 8
            while not os.path.exists(self.machine.at + done) and time.monotonic() < until:
                time.sleep(0.005)
        name = self.some()
        self.type(name, self.typists[name].simple())

    def outside(self):
        """A change that is made outside of all sessions."""
        name = self.some()
        self.typists[name].cwd, before = "/", self.typists[name].cwd
        text = self.typists[name].simple()
        self.typists[name].cwd = before
        self.machine.run("/bin/bash", "-c", text, user=self.homes[name][0])
        self.ordinary()

    def nested(self):
        """A shell in a shell."""
        name = self.some()
        self.type(name, self.choose.choice(["bash", "env x=8 bash -i", "bash"]))
        for _ in range(self.choose.randint(0, 3)):
            one = self.choose.choice([name, name, self.some()])
            self.type(one, self.typists[one].line())
        self.type(name, self.choose.choice(["exit", "exit 3"]))

    def leave(self):
        """A session that ends, and a new one."""
        name = self.some()
        self.type(name, self.choose.choice(LEAVING))

    def interrupted(self):
        """A line that is interrupted from the keyboard, or by a lost connection."""
        name = self.some()
        typist, gate = self.typists[name], self.machine.gate()
        text = f"{typist.simple()}; /usr/bin/cat {gate}; {typist.simple()}"
        self.note(name, text)
        terminal = self.terminals[name]
        terminal.send(text + "\n")
        opened = self.opened(gate, name)
        try:
            if self.choose.random() < 0.5:
                terminal.send(b"\3")
                terminal.screen()
                self.settle(name)
            else:
                terminal.close()
                self.login(name)
        except Ended:
            self.again(name)
        finally:
            if opened is not None:
                os.close(opened)

    def pasted(self):
        """Two lines that are typed at once."""
        name = self.some()
        texts = [self.note(name, self.typists[name].simple()) for _ in range(2)]
        terminal = self.terminals[name]
        terminal.send("\n".join(texts) + "\n")
        try:
            terminal.screen(prompts=2)
        except Ended:
            self.again(name)
            return
        self.settle(name)

    def purge(self):
        """Makes room, if lines have filled the folders."""
        copy = self.moments[-1].copy
        if len(copy) > 500 or sum(node.sight[3] for node in copy.values()) > 6_000_000:
            self.machine.run("/bin/bash", "-c", "rm -rf /tmp/* /srv/* /var/log/* /home/*/*; "
                             "mkdir /tmp/pipes /srv/data; chmod 777 /tmp/pipes /srv/data; "
                             "echo a > /srv/data/x")
            self.type(self.some(), "true")

    def play(self):
        self.start()
        actions = [self.overlap, self.outside, self.background, self.nested, self.leave,
                   self.interrupted, self.pasted]
        while len(self.typed) < self.lines:
            if self.choose.random() < 0.9:
                self.ordinary()
            else:
                self.choose.choice(actions)()
            self.purge()
        names = list(self.homes)
        if self.choose.random() < 0.5:
            for name in names[1:]:
                self.terminals.pop(name).close()
            self.type(names[0], "true")

    def close(self):
        for terminal in self.terminals.values():
            terminal.close()
        self.machine.close()

    # ---- what is made of the spool

    def wanted(self):
        """The lines that the log has to have, with the state after each: that of the copy, if one
        was taken then, and else what the spool says."""
        lines = seen_lines(self.spool)
        copies = {}
        for moment in self.moments:
            last = bisect.bisect_right([line.at for line in lines], moment.count - 1) - 1
            copies[last] = moment
        wanted, typed, after = [], [], None
        for number, line in reversed([*enumerate(lines)]):
            moment = copies.get(number)
            tree = tree_of(moment.copy) if moment else line.tree
            witness = self.witnesses.get(line.at) if line.whole else None
            cwd = cwd_in(tree, witness.cwd) if witness else None
            wanted.append(Wanted(line.session, line.text.decode(errors="replace"), tree, cwd,
                                 witness.variables if witness else None))
            after = moment.line if moment else after
            typed.append(after)
        return wanted[::-1], typed[::-1], copies.get(-1)

    def compare_log(self, log):
        """Compares the states of a log, and returns how many lines stand with their own text, and
        how many for others."""
        told, (wanted, typed, first) = told_lines(log), self.wanted()
        if first:
            for path, what in differences(told[0], Wanted(0, "", tree_of(first.copy), None, None)):
                self.fault(f"at first {what}", path)
        try:
            places = align(told, wanted)
        except Differs as fault:
            number, found = fault.args
            for path, what in found:
                self.fault(f"{what}; seen line {number + 1} {wanted[number].text[:200]!r}", path,
                           typed[number])
            return 0, 0
        own = sum(place - before == 1 and told[place].text == line.text
                  for before, place, line in zip([0, *places], places, wanted))
        return own, len(wanted) - own


def cwd_in(tree, cwd):
    """The directory that a state has for that of a shell."""
    if not is_utf8(cwd):
        return "/.casebook/elsewhere"
    path = cwd.decode()
    if is_watched(path) and tree.get(path) != DIRECTORY:
        return "/.casebook/elsewhere"
    return path


def squeezed(text):
    """A text without what the history changes: continued rows, and empty ones after a
    here-document. Of a row that is continued by an empty one it has the backslash alone."""
    return re.sub(r"\n+", "\n", f"{text}\n".replace("\\\n", "")).rstrip("\n")
