"""A plain reading of docs/FORMATS.md: which refusal a call of the program gets. Belongs to
`fuzz_documents`.

`refusal(command, options, data)` returns the number of the refusal of a command with some options,
each a name and a text, about an input; or None if there is none. It shares no code with the
product.
"""
import re

from read_documents import Refused, read
from read_json import json_value

EDITING = {"--cancel", "--replace"}
REPAIRING = EDITING | {"--cuts", "--workers"}
OPTIONS = {"replay": EDITING, "record": set(), "check": set(), "repair": REPAIRING,
           "relog": REPAIRING, "trim": {"--at"}}
OF_SCRIPTS = {"replay", "record"}
MOST_NUMBER, MOST_WORKERS = 2 ** 32 - 1, 16


# ---- words


def word(holds):
    if not holds:
        raise Refused(31)


def decimal(text):
    word(re.fullmatch("[0-9]{1,10}", text, re.ASCII) and int(text) <= MOST_NUMBER)
    return int(text)


def decimals(text):
    return [decimal(part) for part in text.split(",")] if text else []


def replacements(text):
    """Numbers with their new texts."""
    try:
        value = json_value(text.encode())
    except ValueError as error:
        raise Refused(31) from error
    word(isinstance(value, list))
    for row in value:
        word(isinstance(row, list) and len(row) == 2)
        word(type(row[0]) is int and row[0] <= MOST_NUMBER)
        word(isinstance(row[1], str))
    return value


def read_words(command, options):
    """The edits, the cuts, the workers and the number of a call."""
    given = dict(options)
    word(len(given) == len(options) and set(given) <= OPTIONS[command])
    word(command != "trim" or "--at" in given)
    edits = [(number, None) for number in decimals(given.get("--cancel", ""))]
    edits += map(tuple, replacements(given.get("--replace", "[]")))
    return (edits, decimals(given.get("--cuts", "64")), decimal(given.get("--workers", "0")),
            decimal(given.get("--at", "1")))


# ---- calls


def check_rounds(cuts, workers):
    if workers > MOST_WORKERS:
        raise Refused(23)
    if not cuts or 0 in cuts:
        raise Refused(22)


def check_edits(edits, beginning, numbers):
    if len(set(edits)) > len({number for number, _ in edits}):
        raise Refused(26)
    if any(0 < number < beginning for number, _ in edits):
        raise Refused(25)
    if any(number not in numbers for number, _ in edits):
        raise Refused(21)


def check_call(command, options, data):
    edits, cuts, workers, at = read_words(command, options)
    beginning, numbers = read(data, "script" if command in OF_SCRIPTS else "log")
    check_rounds(cuts, workers)
    check_edits(edits, beginning, numbers)
    if command == "trim" and at < beginning:
        raise Refused(25)


def refusal(command, options, data):
    try:
        check_call(command, options, data)
        return None
    except Refused as refused:
        return refused.args[0]
