"""Random words of the program `casebook` about a document. Belongs to `compare_casebooks`."""
import collections
import itertools
import json
import os

from hostile_documents import HARM
from random_scripts import rounds

OPTIONS = {
    "show": ["--why", "--diff", "--line", "--about", "--format", "--replace", "--workers",
             "--cuts"],
    "page": ["--title", "--all", "--about", "--replace", "--workers", "--cuts"],
    "lines": ["--session", "--user", "--from", "--to", "--reads", "--writes", "--touches", "--text",
              "--shown", "--unknown", "--about", "--format"],
    "compare": ["--mounts", "--at", "--skip", "--skip"],
    "restore": ["--at", "--only", "--only", "--replace", "--workers", "--cuts", "--apply"],
    "check": [], "log": [],
}
FLAGS = ("--why", "--diff", "--all", "--unknown", "--mounts")
TOPICS = [*OPTIONS, "snapshot", "script", "observe", "import", "status", "lists", "documents",
          "refusals", "profile", "x"]
WRONG = ["", "x", "-1", "0", "4294967296", "/..", "(", *HARM]
TIMES = ["2025-05-06", "2025-05-06 10:52", "2025-05-06T12:53:01+02:00", "2025-11-28", "1970-01-01",
         "2025-11-28 20:53", "9999-12-31"]
MOST_IN_ALL_SETS = 8
# Words, what standard input has, and whether standard output is a terminal.
Call = collections.namedtuple("Call", "words given terminal")
# What the words of a document's call may name.
Facts = collections.namedtuple("Facts", "data numbers sessions names paths texts")


def cancel_list(choose, facts):
    """A list of lines."""
    parts = [str(choose.choice(facts.numbers)) for _ in range(choose.choice([0, 1, 1, 2, 3, 5]))]
    if choose.random() < 0.3:
        parts += [f"{choose.choice(facts.sessions)}:all", f"-{choose.choice(facts.numbers)}"]
    if choose.random() < 0.1:
        first, last = sorted(choose.choices(facts.numbers, k=2))
        parts.append(f"{first}-{last}")
    return choose.choice([",".join(parts)] * 9 + ["@list"])


def value(choose, facts, command, option):
    """A value of an option: most often one that means something."""
    if choose.random() < 0.02:
        return choose.choice(WRONG)
    number, path = choose.choice(facts.numbers), choose.choice(facts.paths)
    text = choose.choice(facts.texts)
    _, cuts, _, workers = rounds(choose)
    return {
        "--session": str(choose.choice(facts.sessions)), "--user": choose.choice(facts.names),
        "--line": str(number), "--cuts": cuts, "--workers": workers, "--title": choose.choice(HARM),
        "--from": choose.choice([str(number), *TIMES]),
        "--to": choose.choice([str(number), *TIMES]),
        "--replace": json.dumps([[number, choose.choice([text, "cat f", "echo x > f", "perl x"])]]),
        "--text": choose.choice([*text.split()[:1], "^cat", "[a-f]+$", ">"]),
        "--shown": choose.choice(["a", "^.*b$", "No such", "\\d", "<"]),
        "--format": choose.choice(["text", "json"] if command == "show" else ["tsv", "numbers"]),
        "--about": choose.choice(["about.json"] * 18 + ["odd.json", "none"]),
        "--at": choose.choice(["/", os.path.dirname(path), path]),
    }.get(option) or choose.choice([path, path, os.path.dirname(path), f"{path}/"])


def chosen(choose, command, chance):
    """Some options of a command: most often such that can be given together."""
    some = [option for option in OPTIONS[command] if choose.random() < chance]
    if choose.random() < 0.2:
        return some
    if command == "show" and "--format" in some:
        return [option for option in some if option not in ("--why", "--diff", "--line")]
    if "--about" not in some and not {"--user", "--from", "--to"}.isdisjoint(some):
        return [*some, "--about"]
    return some


def asked(choose, facts, command, options):
    """The words of a command with some of its options."""
    words = [command, "log.json"]
    if command in ("show", "page", "restore"):
        words += ["--cancel", cancel_list(choose, facts)]
    if command == "restore":
        words += ["--root", "folder"]
    if command == "compare":
        words += choose.choice([["folder"]] * 2 + [["--tar", "tar"], ["--snapshot", "snapshot"]])
    for option in options:
        words.append(option)
        if option == "--apply":
            words += ["--undo", "undo"]
        elif option not in FLAGS:
            words.append(value(choose, facts, command, option))
    return words


def call_of(choose, facts, words):
    """A call with these words: by name, or by standard input, or on a terminal."""
    if choose.random() < 0.2:
        return Call([words[0], "-", *words[2:]], facts.data, False)
    return Call(words, b"", choose.random() < 0.1 and "--apply" not in words)


def sets(options):
    """All sets of some options, and of many all that have one or two."""
    most = len(options) if len(options) <= MOST_IN_ALL_SETS else 2
    for count in range(most + 1):
        yield from itertools.combinations(options, count)


def all_calls(choose, facts):
    """Calls of each command with each set of its options, and of `show` for each of some lines."""
    for command, options in OPTIONS.items():
        for some in sets(options):
            yield call_of(choose, facts, asked(choose, facts, command, some))
    for number in facts.numbers[:60]:
        words = asked(choose, facts, "show", [])
        yield call_of(choose, facts, [*words, "--line", str(number)])


def some_calls(choose, facts, count):
    """Calls with random options."""
    for at in range(count):
        command = ("show", "page", "lines", "show", "page", "check", "compare", "restore")[at % 8]
        words = asked(choose, facts, command, chosen(choose, command, 0.35))
        yield call_of(choose, facts, words)


def edited_calls(choose, facts, made, has_folder):
    """Calls of the repair that cancels or replaces lines, and one about its log or its folder."""
    cancelled = ",".join(str(number) for number, text in made.items() if text is None)
    replaced = [[number, text] for number, text in made.items() if text is not None]
    given = ["--cancel", cancelled] + (["--replace", json.dumps(replaced)] if replaced else [])
    for command in ["show", choose.choice(["show", "page"]), *["restore"] * has_folder]:
        some = [option for option in chosen(choose, command, 0.35) if option != "--replace"]
        words = asked(choose, facts, command, some)
        yield call_of(choose, facts, [*words[:2], *given, *words[4:]])
    command = "compare" if has_folder else choose.choice(["lines", "lines", "check"])
    yield call_of(choose, facts, asked(choose, facts, command, chosen(choose, command, 0.2)))


def help_calls():
    """Calls that ask for help, and words that make no request."""
    for topic in TOPICS:
        yield Call(["help", topic], b"", False)
        for more in ([], ["--help"], ["none"], ["log.json", "--x"], ["log.json", "a", "b"]):
            if topic != "observe":
                yield Call([topic, *more], b"", False)
    yield from (Call(words, b"", False) for words in ([], ["--help"], [""], ["help", "help", "x"]))
