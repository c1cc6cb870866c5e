"""Random scripts, and random ways to repair their logs. Belongs to the other checks."""
import json

from lines_for_dash import Lines, for_profile

USERS = "root:x:0:0:r:/d:/bin/sh\nann:x:1:1:a:/e:/bin/sh\n"
TREE = [["/etc"], ["/etc/passwd", USERS.encode().hex()], ["/d"], ["/d/z"], ["/e"],
        ["/d/x", b"a,b\nab\n".hex()], ["/d/y", b"x y z\nb".hex()],
        ["/h", b"hello,a,b\n\nb\n".hex()]]
SESSIONS = [[1, "/", 0, [["HOME", "/d"]]], [2, "/", 0, [["HOME", "/e"], ["x", "a b"]]],
            [3, "/d", 1, []]]
# Lines that change what others need.
TELLING = ["cd /d", "cd /", "cd", "x=a", "false", "rm -r d/z", "mkdir d/z", "mv d/z /e/w",
           "rm -rf e", "echo $?", "echo ann:x:2:2:a:/:/bin/sh >> /etc/passwd", "id -u ann",
           "cat ~ann/f", "cat /etc/passwd", "cp h d/x", "> h", "cat h >> d/y", "echo $x > f",
           "cat f d/x d/y"]


def text_of(choose, lines):
    """A line."""
    return choose.choice(TELLING) if choose.random() < 0.4 else for_profile(lines.line())


def script(choose, most=25):
    """A script of a few lines, as a document."""
    lines = Lines(choose)
    rows = []
    for number in range(1, choose.randint(2, most) + 1):
        text = text_of(choose, lines)
        rows.append([number, choose.choice([1, 1, 2, 3]), text])
    return json.dumps({"script": 1, "tree": TREE, "sessions": SESSIONS, "lines": rows})


def edits(choose, numbers, texts):
    """Edits of lines with these numbers: each is cancelled, or gets another text, an own one or that
    of a line."""
    lines = Lines(choose)
    made = {}
    for number in numbers:
        kind = choose.random()
        text = choose.choice(texts) if kind < 0.1 else text_of(choose, lines)
        made[number] = text if kind < 0.4 else None
    return made


def cuts_and_workers(choose):
    """Random cuts, and a number of workers."""
    cuts = [choose.choice([1, 1, 2, 3, 7, 64]) for _ in range(choose.randint(1, 3))]
    return ",".join(map(str, cuts)), choose.choice([0, 1, 3, 16])


def rounds(choose):
    """Words for the rounds of a repair."""
    cuts, workers = cuts_and_workers(choose)
    return ["--cuts", cuts, "--workers", str(workers)]
