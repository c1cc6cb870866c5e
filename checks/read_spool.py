"""Reads a spool, and says what each line was seen to do, as `docs/FORMATS.md` says."""
import collections
import hashlib
import os
import re
import urllib.parse

from machine import Node, is_utf8

VALUE_LIMIT = 65_536                            # bytes of a variable in a state
DIRECTORY = "d"                                 # what stands for a directory in a tree


Observation = collections.namedtuple("Observation", "record changes reads tree")


def decoded(field):
    return urllib.parse.unquote_to_bytes(field)


def opaque(what, *fields):
    """What stands in a state for bytes that it doesn't have."""
    return "\t".join(["not kept by casebook: " + what, *fields]).encode()


def escaped(data):
    return "".join(chr(byte) if 32 <= byte <= 126 and byte != ord("%") else f"%{byte:02X}"
                   for byte in data)


def version(sight):
    """What tells a file from others, and from itself once it was changed."""
    return [str(part) for part in (sight[3], sight[4], sight[9], sight[10])]


def node_of(node):
    """What a state has for what is at a path."""
    if node.kind == "dir":
        return DIRECTORY
    if node.kind == "link":
        return opaque("a link", escaped(node.data))
    if node.kind == "file":
        return node.data if node.data is not None \
            else opaque("a file that is too large", *version(node.sight))
    return opaque("neither a file nor a directory", *version(node.sight))


def tree_of(nodes):
    """What a state has, by paths."""
    return {path: node_of(node) for path, node in nodes.items()}


def is_changed(old, new):
    if old.kind != new.kind or old.sight[4] != new.sight[4]:
        return True
    content = [] if new.kind == "dir" else [3, *range(7, 11)]
    return any(old.sight[at] != new.sight[at] for at in [0, 1, 2, *content])


def is_read(old, new):
    if new.kind == "dir":
        return bool(old) and old.kind == "dir" and old.sight[4] == new.sight[4] \
            and old.sight[5:7] != new.sight[5:7]
    if new.kind != "file":
        return False
    if old and old.kind == "file" and old.sight[4] == new.sight[4]:
        return old.sight[5:7] != new.sight[5:7]
    return new.sight[5:7] > new.sight[7:9]


class Differs(Exception):
    """What a comparison found."""


class NotTaken(Exception):
    """A record wasn't taken, so what follows can't be compared."""


class Spool:
    """A spool that is read as `docs/FORMATS.md` says."""

    def __init__(self, at):
        self.at, self.nodes, self.observations, self.whole, self.held = at, {}, [], 0, {}
        head, *rows = self.rows("first")
        if head != ["listing", "0", str(len(rows))]:
            raise Differs(f"head of first: {head}")
        self.take(rows)
        self.first = tree_of(self.nodes)

    def rows(self, name, start=0):
        with open(f"{self.at}/{name}", encoding="ascii") as file:
            file.seek(start)
            text = file.read()
        if text and not text.endswith("\n"):
            raise Differs(f"{name} doesn't end with a newline")
        return [row.split("\t") for row in text.split("\n")[:-1]]

    def content(self, digest):
        if digest not in self.held:
            with open(f"{self.at}/contents/{digest[:2]}/{digest[2:]}", "rb") as file:
                self.held[digest] = file.read()
            if hashlib.sha256(self.held[digest]).hexdigest() != digest:
                raise Differs(f"the content {digest} has another digest")
        return self.held[digest]

    def take(self, notes):
        """Makes notes of the paths, and returns whether they show that something was changed, and
        that something was read."""
        before, named = dict(self.nodes), set()
        for word, *fields in notes:
            path = decoded(fields[0]).decode()
            if word in ("dir", "file", "link", "other"):
                self.nodes[path] = Node(word, [int(fields[1], 8), *map(int, fields[2:])], None)
            elif word == "gone":
                del self.nodes[path]
        changes = not before.keys() <= self.nodes.keys() or any(
            path not in before or is_changed(before[path], node)
            for path, node in self.nodes.items())
        reads = any(is_read(before.get(path), node) for path, node in self.nodes.items())
        for word, *fields in notes:
            path = decoded(fields[0]).decode()
            if word in ("bytes", "target", "unkept"):
                named.add(path)
                data = self.content(fields[1]) if word == "bytes" else decoded(fields[1])
                if word == "unkept":
                    data = None
                    if fields[1] != "too-large":
                        raise Differs(f"{path} is {fields[1]}")
                self.nodes[path] = self.nodes[path]._replace(data=data)
        for path, node in self.nodes.items():
            old = before.get(path)
            if path in named or node.kind in ("dir", "other"):
                continue
            if old is None or is_changed(old, node):
                raise Differs(f"what {path} holds isn't in the spool")
            self.nodes[path] = node._replace(data=old.data)
        for word, *fields in notes:
            if word == "looked":
                self.look(self.nodes[decoded(fields[0]).decode()], list(map(int, fields[1:3])))
        return changes, reads

    def look(self, looked, when):
        """Notes when the recorder read a path, by any name that it has."""
        for node in self.nodes.values():
            if node is looked or (node.kind == "file" and node.sight[3:5] == looked.sight[3:5]
                                  and node.sight[7:] == looked.sight[7:]):
                node.sight[5:7] = when

    def more(self):
        """The records that are new since the last call."""
        rows, notes, before = self.rows("lines", self.whole), [], len(self.observations)
        self.whole = os.path.getsize(f"{self.at}/lines")
        for row in rows:
            if row[0] != "record":
                notes.append(row)
                continue
            (changes, reads), record = self.take(notes), [decoded(field) for field in row[1:]]
            self.observations.append(Observation(record, changes, reads, tree_of(self.nodes)))
            notes = []
        if notes:
            raise Differs("rows of the spool belong to no record")
        return [observation.record for observation in self.observations[before:]]

    def compare(self, copy):
        """What the spool says otherwise than a copy of the folders."""
        said = self.nodes
        for path in sorted(said.keys() | copy.keys()):
            if path not in said or path not in copy:
                yield path, f"is {'not ' if path not in said else ''}in the spool"
            elif said[path] != copy[path]:
                for what, old, new in zip(Node._fields, said[path], copy[path]):
                    if old != new:
                        yield path, f"{what} in the spool {str(old)[:200]}, not {str(new)[:200]}"


# ---- the lines that a spool says, as crates/casebook_typed/specs defines them

Span = collections.namedtuple("Span", "session shown since until ended")
Seen = collections.namedtuple("Seen", "at session text whole tree")


def spans_of(records, places):
    """The lines of records, by when they are open."""
    first = {}
    for at, (kind, session, *_, number) in enumerate(record[:6] for record in records):
        if kind in (b"begin", b"end"):
            first.setdefault((kind, session, number), at)
    spans = []
    for at, record in enumerate(records):
        kind, session, number = record[0], record[1], record[5]
        if kind == b"begin":
            end = first.get((b"end", session, number))
            until = at + 1 if end is None else end
            spans.append(Span(places[session], at, at + 1, until, end is not None))
        elif kind == b"end" and (b"begin", session, number) not in first:
            spans.append(Span(places[session], at, at, at, True))
    return spans


def text_of(record):
    """The text of a line in the record of its begin or its end."""
    return record[7] if record[0] == b"begin" else record[9]


def seen_lines(spool):
    """The lines of which a recording is made, in order."""
    records = [observation.record for observation in spool.observations]
    places = {}
    for record in records:
        places.setdefault(record[1], len(places) + 1)
    starts = [(at, places.get(record[5])) for at, record in enumerate(records)
              if record[0] == b"start"]
    spans, lines, before = spans_of(records, places), [], spool.first
    for at, (record, changes, reads, after) in enumerate(spool.observations):
        active = [span for span in spans if is_active(span, at, starts)]
        closing = [span for span in active if span.until == at]
        cut = next((span for span in closing if not span.ended), None)
        ended = next((span for span in closing if span.ended), None)
        if cut:
            tree = before if ended and len(active) > 2 else after
            lines.append(Seen(at, cut.session, text_of(records[cut.shown]), False, tree))
        if ended:
            lines.append(Seen(at, ended.session, text_of(record), True, after))
        if not cut and not ended and active and (changes or reads):
            first = active[0]
            lines.append(Seen(at, first.session, text_of(records[first.shown]), False, after))
        elif not cut and not ended and not active and changes:
            lines.append(Seen(at, 0, b"", False, after))
        before = after
    return lines


def is_active(span, at, starts):
    """Whether a line is open at an observation and doesn't wait for a session that it started."""
    return span.since <= at <= span.until and (at == span.until or not any(
        span.since <= start < at and parent == span.session for start, parent in starts))


# ---- variables

LEFT_OUT = set("""COLUMNS DIRSTACK EPOCHREALTIME EPOCHSECONDS EUID FUNCNAME GROUPS HISTCMD LINENO
    LINES PIPESTATUS PPID PROMPT_COMMAND PS0 PWD RANDOM RETRO_SESSION SECONDS SHELLOPTS SRANDOM
    UID _ -""".split())
UNASSIGNED = {"IFS", "PWD", "OLDPWD", "CDPATH"}
ESCAPES = {b"a": b"\a", b"b": b"\b", b"E": b"\x1b", b"f": b"\f", b"n": b"\n", b"r": b"\r",
           b"t": b"\t", b"v": b"\v", b"\\": b"\\", b"'": b"'", b'"': b'"', b"?": b"?"}


def rows_of_variables(text):
    """The rows of `declare -p` by names, but for those that bash or the hook changes."""
    rows = {}
    for row in text.split(b"\n"):
        found = re.match(rb"declare (-\S*) ([^=]+)", row)
        if found:
            name = found[2].decode(errors="surrogateescape")
            if name not in LEFT_OUT and not name.startswith(("BASH", "__retro_")):
                rows[name] = row
    return rows


def values_of(rows):
    """The values of variables that are in a state, by names."""
    values = {}
    for name, row in rows.items():
        found = re.match(rb"declare (-\S*) [A-Za-z_][A-Za-z0-9_]*=(.*)$", row, re.S)
        if not found or name in UNASSIGNED or any(flag in found[1] for flag in (b"a", b"A", b"n")):
            continue
        if found[2].startswith(b"$'"):
            value = re.sub(rb"\\([0-7]{1,3}|.)", lambda part: bytes([int(part[1], 8)])
                           if part[1].isdigit() else ESCAPES[part[1]], found[2][2:-1])
        else:
            value = re.sub(rb'\\(["\\$`])', rb"\1", found[2][1:-1])
        if len(value) > VALUE_LIMIT or not is_utf8(value):
            value = opaque("a value", hashlib.sha256(value).hexdigest())
        values[name] = value.decode()
    return values
