"""JSON as `serde_json` reads it. Belongs to `fuzz_documents`."""
import json
import math
import re

DEEPEST = 127


def number(text):
    """An integer if the number is whole, has no sign and has 64 bits, and else a float."""
    if re.fullmatch(r"[0-9]{1,20}", text) and int(text) < 2 ** 64:
        return int(text)
    if not math.isfinite(float(text)):
        raise ValueError("out of range")
    return float(text)


def pairs(found):
    check_texts([part for pair in found for part in pair])
    return dict(found)


def check_texts(value):
    """Fails if a surrogate stands alone in a text. Objects were checked when they were read."""
    if isinstance(value, str):
        value.encode()
    for part in value if isinstance(value, list) else ():
        check_texts(part)


def depth(text):
    """How deep arrays and objects nest."""
    now = most = 0
    for token in re.finditer(r'"(?:[^"\\]|\\.)*"|[][{}]', text, re.DOTALL):
        now += {"[": 1, "{": 1, "]": -1, "}": -1}.get(token[0], 0)
        most = max(most, now)
    return most


def json_value(data):
    """The JSON value that bytes are. Fails with ValueError if they aren't UTF-8 or none."""
    text = data.decode()
    if depth(text) > DEEPEST:
        raise ValueError("too deep")
    try:
        value = json.loads(text, parse_int=number, parse_float=number, parse_constant=number,
                           object_pairs_hook=pairs)
    except RecursionError as error:
        raise ValueError("too deep") from error
    check_texts(value)
    return value
