"""A plain reading of docs/FORMATS.md: which refusal a document gets. Belongs to `fuzz_documents`.

`read(data, kind)` reads some bytes as a "script" or a "log". It raises `Refused` with the number of
the refusal, or returns the number at which the document begins, and the numbers of its lines. It is
written for clearness, shares no code with the product, and keeps only what refusals depend on: of a
file its size, of a session its number.
"""
import re

from read_json import json_value

MOST_NAME, MOST_FILE, MOST_VALUE = 255, 1_048_576, 65_536
VARIABLE = re.compile(r"[A-Za-z_][A-Za-z0-9_]*\Z")
BARRED = {"IFS", "PWD", "OLDPWD", "CDPATH"}
DIRECTORY, DEVICE = "d", ("dev", "null")
SHAPE, HEX, LIMIT = 13, 15, 11


class Refused(Exception):
    """A refusal, with its number."""


# ---- parts of documents. `worst` gets the number of each fault that isn't one of shape.


def need(holds):
    if not holds:
        raise Refused(SHAPE)


def rows(value, *lengths):
    need(isinstance(value, list))
    need(all(isinstance(row, list) and len(row) in lengths for row in value))
    return value


def whole(value, most=2 ** 32 - 1):
    need(isinstance(value, int) and not isinstance(value, bool) and value <= most)
    return value


def text(value):
    need(isinstance(value, str))
    return value


def name(value, worst):
    need(text(value) not in ("", ".", "..") and "/" not in value and "\0" not in value)
    if len(value.encode()) > MOST_NAME:
        worst.add(LIMIT)
    return value


def path(value, worst):
    need(text(value).startswith("/"))
    return () if value == "/" else tuple(name(part, worst) for part in value[1:].split("/"))


def hex_size(value, worst, most=None):
    """The number of bytes."""
    if not re.fullmatch(r"([0-9A-Fa-f]{2})*", text(value), re.ASCII):
        worst.add(HEX)
    if most is not None and len(value) // 2 > most:
        worst.add(LIMIT)
    return len(value) // 2


def limited(value, worst):
    if len(text(value).encode()) > MOST_VALUE:
        worst.add(LIMIT)
    return value


def variable(value):
    need(VARIABLE.match(text(value)) is not None and value not in BARRED)
    return value


def node(value, worst):
    """None, DIRECTORY or the size of a file."""
    need(isinstance(value, list))
    if value in ([], ["d"]):
        return DIRECTORY if value else None
    need(len(value) == 2 and value[0] == "f")
    return hex_size(value[1], worst, MOST_FILE)


def judge(worst):
    if worst:
        raise Refused(HEX if HEX in worst else LIMIT)


# ---- trees and sessions


def read_tree(value):
    worst = set()
    entries = [(path(row[0], worst),
                DIRECTORY if len(row) == 1 else hex_size(row[1], worst, MOST_FILE))
               for row in rows(value, 1, 2)]
    judge(worst)
    tree = {(): DIRECTORY}
    tree.update(entries)
    lawful = (len(tree) == len(entries) + 1
              and all(tree.get(at[:-1]) == DIRECTORY and at[:2] != DEVICE for at, _ in entries))
    if not lawful:
        raise Refused(10)
    return tree


def read_sessions(value):
    worst, sessions = set(), set()
    for sid, at, status, variables in rows(value, 4):
        need(whole(sid) not in sessions)
        sessions.add(sid)
        path(at, worst)
        whole(status, 255)
        names = [variable(row[0]) for row in rows(variables, 2)]
        need(len(names) == len(set(names)))
        for _, given in variables:
            limited(given, worst)
    judge(worst)
    return sessions


# ---- notes


def read_query(note, worst):
    tag, asked, answer = note[0], note[1], note[-1]
    if tag in ("kind", "bytes", "names", "canwrite"):
        path(asked, worst)
    if tag == "kind":
        need(answer in ("missing", "dir", "file"))
    elif tag == "bytes":
        node(answer, worst)
    elif tag == "names":
        need(answer is None or isinstance(answer, list))
        for child in answer or ():
            name(child, worst)
    elif tag == "canwrite":
        whole(note[2])
        need(answer in ("yes", "noparent", "notdir", "isdir", "toolarge"))
    elif tag == "user":
        text(asked)
        for number_of, home in rows([answer], 2) if answer is not None else ():
            whole(number_of)
            text(home)
    elif tag == "var":
        variable(asked)
        limited("" if answer is None else answer, worst)
    elif tag == "cwd":
        path(answer, worst)
    elif tag == "status":
        whole(answer, 255)


def read_change(note, worst):
    """A change of the tree, or None if the note changes a session."""
    tag, *rest = note
    if tag == "put":
        return tag, path(rest[0], worst), node(rest[1], worst)
    if tag == "grow":
        return tag, path(rest[0], worst), hex_size(rest[1], worst)
    if tag == "setvar":
        variable(rest[0])
        limited(rest[1], worst)
    elif tag == "setcwd":
        path(rest[0], worst)
    elif tag == "setstatus":
        whole(rest[0], 255)
    return None


LENGTHS = {"kind": 3, "bytes": 3, "names": 3, "canwrite": 4, "user": 3, "var": 3, "cwd": 2,
           "status": 2, "put": 3, "grow": 3, "setvar": 3, "setcwd": 2, "setstatus": 2}


def read_note(note, worst):
    need(isinstance(note, list) and note and isinstance(note[0], str))
    need(len(note) == LENGTHS.get(note[0]))
    read_query(note, worst)
    return read_change(note, worst)


def make_change(tree, change):
    """Changes a tree. Fails if the change isn't lawful in it."""
    tag, at, new = change
    old = tree.get(at)
    if tag == "grow":
        new = (old or 0) + new if old != DIRECTORY else None
        lawful = new is not None and new <= MOST_FILE
    else:
        has_children = at == () or any(other[:-1] == at for other in tree)
        lawful = new == DIRECTORY or not (old == DIRECTORY and has_children)
    if new is not None:
        lawful = lawful and at[:2] != DEVICE and (at == () or tree.get(at[:-1]) == DIRECTORY)
    if not lawful:
        raise Refused(10)
    if new is None:
        tree.pop(at, None)
    else:
        tree[at] = new


# ---- documents


def read_lines(value, kind):
    """Each line's number and session, and its changes of the tree."""
    worst, lines = set(), []
    for row in rows(value, 3 if kind == "script" else 5):
        need(whole(row[0]) > 0)
        whole(row[1])
        text(row[2])
        notes = []
        if kind == "log":
            need(isinstance(row[3], list))
            notes = [read_note(note, worst) for note in row[3]]
            hex_size(row[4], worst)
        lines.append((row[0], row[1], [change for change in notes if change]))
    judge(worst)
    return lines


def parse(data):
    try:
        return json_value(data)
    except ValueError as error:
        raise Refused(12) from error


def check_keys(value, kind):
    """Keys of either version, and those of each version."""
    need(isinstance(value, dict))
    keys = {kind, "tree", "sessions", "lines"}
    if set(value) - keys - ({"from"} if kind == "log" else set()):
        raise Refused(14)
    need(keys <= set(value))


def read_beginning(value, kind):
    """The number at which a document begins, by its version."""
    version = whole(value[kind], 2 ** 64 - 1)
    if version != 1 and (kind, version) != ("log", 2):
        raise Refused(16)
    if version == 1:
        if "from" in value:
            raise Refused(14)
        return 1
    need("from" in value)
    need(whole(value["from"]) > 0)
    return value["from"]


def check_numbers(beginning, numbers):
    if any(one >= two for one, two in zip(numbers, numbers[1:])):
        raise Refused(8)
    if any(number < beginning for number in numbers):
        raise Refused(8)


def read(data, kind):
    value = parse(data)
    check_keys(value, kind)
    beginning = read_beginning(value, kind)
    tree = read_tree(value["tree"])
    sessions = read_sessions(value["sessions"])
    lines = read_lines(value["lines"], kind)
    numbers = [line[0] for line in lines]
    check_numbers(beginning, numbers)
    if any(line[1] not in sessions for line in lines):
        raise Refused(9)
    for line in lines:
        for change in line[2]:
            make_change(tree, change)
    return beginning, numbers
