"""Scripts, names, altered logs and a spool that would do harm if they were shown as they are.
Belongs to `compare_casebooks`."""
import json

from lines_for_dash import quoted
from read_spool import escaped

HARM = ["</style><script>alert(1)</script>", "--><!-- ]]>", "\"'><img src=x onerror=alert(2)>",
        "&lt;&amp;& &#39;", "\x1b[31m\x1b]0;x\x07\r\b", "\x85\x9b31m\xad", "\u202egnp\u2066x\u2069",
        "\u200d\ufeff\u2028\U000e0001", "\u27e8U+001B\u27e9", " a  b\tc ", "\U0001f600\u00e9\u4e2d",
        "n" * 200, "=+>-|", "$x `a` \\n \\"]
# Lines that Retro's shell doesn't understand, and lines of nothing.
ODD_LINES = ["perl x > f", "ls", "grep -r a .", "echo *", "echo $z", "cat", "vi f; cat f", "tee",
             "cp -r a b", "echo `id`", "(a)", "", " ", "# only", ";", "x=1", "cat f f f",
             "nosuch > f", "python3 x >> empty; cat empty", "cat long many > all; cat all"]
BROKEN = b"\xff\xfe\n\xc3(\n\xed\xa0\x80\xf4\x90\x80\x80\n\xe2\x82"
CONTENTS = {"bytes": bytes(range(256)), "broken": BROKEN, "long": b"l" * 9_000 + b"\n" + BROKEN * 9,
            "many": b"".join(b"row %d\n" % number for number in range(150)), "empty": b"",
            "f": b"a\nb\nc", "z": "".join(f"{harm}\n" for harm in HARM).encode()}
START = 1764363069                              # a second since 1970


def name_of(harm):
    """A name with a harm: one that a file may have."""
    return harm.replace("/", "\u2215")


def lines_with(harm):
    """Lines that have a harm as a text, as a name, in a variable and in what they print."""
    name, text = quoted(name_of(harm)), quoted(harm)
    return [f"echo {text} > {name}", f"cat {name}", f"cat bytes >> {name}; cat {name} broken",
            f"x={text}", 'echo "$x"; echo "$x" >> z', f"mkdir d{name}; cd d{name}",
            f"mv /d/{name} /d/old{name}; rm -f ../old{name}", f"cat {name} >> many; cat z",
            f"rm -f {name}; cd /d", f"test -f {name} || echo {text}"]


def hostile_script(choose):
    """A script, as a document. Its numbers have gaps, and the last one is the greatest."""
    texts = [text for harm in HARM for text in lines_with(harm)] + ODD_LINES
    number, rows = 0, []
    for at in sorted(range(len(texts)), key=lambda at: at + choose.randrange(25)):
        number += choose.choice([1, 1, 1, 2, 70])
        rows.append([number, choose.choice([0, 1, 2, 4294967295]), texts[at]])
    rows.append([4294967295, 2, "cat z"])
    tree = [["/d"]] + [[f"/d/{name}", data.hex()] for name, data in CONTENTS.items()]
    sessions = [[number, "/d", 0, [["HOME", "/d"], ["x", choose.choice(HARM)]]]
                for number in [0, 1, 2, 3, 4294967295]]
    return json.dumps({"script": 1, "tree": tree, "sessions": sessions, "lines": rows})


def names_and_times(choose, sessions, numbers):
    """A document for `--about`, without some of the sessions and of the lines."""
    names = [*HARM, "ann", "ann", "Ann B", "", "m" * 300, "7", "\u00e9va"]
    second, times = choose.choice([1746528720, 0, -2, 253402300000, 1746575990]), []
    for number in numbers:
        second += choose.choice([0, 1, 59, 60, 3600, -5])
        times += [[number, second]] * choose.choice([0, 1, 1, 1, 1, 2])
    users = [[number, choose.choice(names)] for number in sessions if choose.random() < 0.8]
    return json.dumps({"about": 1, "sessions": users, "lines": times})


def lie(choose, parts):
    """Changes what a log notes of a line: its text, its session, its output or one of its notes."""
    row, other = choose.choice(parts["lines"]), choose.choice(parts["lines"])
    place = choose.choice([1, 2, 3, 3, 3, 4])
    if place != 3:
        row[place] = other[place] if choose.random() < 0.8 else row[place][:2] if place > 1 else 1
        return
    notes, kind = row[3], choose.randrange(4)
    if kind == 0 or not notes:
        notes.insert(choose.randint(0, len(notes)), choose.choice(other[3] or [["status", 1]]))
    elif kind == 1:
        del notes[choose.randrange(len(notes))]
    elif kind == 2:
        choose.shuffle(notes)
    else:
        note = choose.choice(notes)
        note[-1] = choose.choice([["f", b"no\x1b[1m\n</pre>".hex()], [], ["d"], None, "missing",
                                  "/d", 1, 255, "file", ["b", "a"], "yes", "x"])


def forged(choose, log, is_read, lies):
    """A log with lies, each of which leaves a log that can be read."""
    text = log.decode()
    for _ in range(lies):
        parts = json.loads(text)
        lie(choose, parts)
        now = json.dumps(parts)
        if is_read(now.encode()):
            text = now
    return text.encode()


class Writing:
    """Writes a spool: what people with harm in their names were seen to do."""

    def __init__(self, spool):
        self.spool, self.second, self.counts = spool, START, {}

    def field(self, text):
        return escaped(text.encode())

    def start(self, session, name):
        self.spool.record("start", session, self.second, "", "pts", "0022", self.field(name), "",
                          "same", "", "new", "set +o posix")

    def begin(self, session, text):
        self.second += 17
        self.counts[session] = self.counts.get(session, 0) + 1
        shown = ["hidden", ""] if text is None else ["shown", self.field(text)]
        self.spool.record("begin", session, self.second, str(self.counts[session]), *shown)

    def end(self, session, text, status="0"):
        shown = ["hidden", ""] if text is None else ["shown", self.field(text)]
        self.spool.record("end", session, self.second, str(self.counts[session]), status, status,
                          *shown, "same", "", "same", "")

    def see(self, path, data, wrote=None):
        """A file is there, which is written now or was at another second, and is read now."""
        digest = self.spool.content(data)
        times = f"{self.second}\t0\t{wrote or self.second}\t0\t{wrote or self.second}\t0"
        self.spool.rows += [f"file\t{self.field(path)}\t640\t1000\t7\t{len(data)}\t7\t{times}",
                            f"bytes\t{self.field(path)}\t{digest}"]

    def other(self, kind, path, *more):
        """Something else is there, or nothing is any more."""
        at = f"{self.second}\t0\t{self.second}\t0\t{self.second}\t0"
        cells = "" if kind == "gone" else f"\t755\t0\t0\t1\t9\t{at}"
        self.spool.rows += [f"{kind}\t{self.field(path)}{cells}", *more]

    def line(self, session, text, see=None, status="0"):
        """A line, during which something is seen."""
        self.begin(session, text)
        if see:
            see()
        self.end(session, text, status)


def write_harm(write):
    """Lines with harm as texts, names and bytes: as typed, and such that Retro doesn't know."""
    for at, harm in enumerate(HARM):
        path, data = f"/srv/{name_of(harm)}", f"{harm}\n".encode()
        name, session, other = quoted(path), "ABC"[at % 3], "ABC"[(at + 1) % 3]
        write.line(session, f"echo {quoted(harm)} > {name}", lambda: write.see(path, data))
        write.line(other, f"sort {name} >> /srv/p", lambda: write.see("/srv/p", BROKEN * at))
        write.line("C", f"cat {name}", lambda: write.see(path, data, START))


def write_links(write):
    """A link, a directory and a pipe that lines make, a file that one removes, and changes of
    nobody."""
    target = f"target\t/srv/l\t{write.field(HARM[2])}"
    write.line("B", "ln -s x /srv/l", lambda: write.other("link", "/srv/l", target))
    write.line("C", "rm /srv/q", lambda: write.other("gone", "/srv/q"))
    write.line("C", "mkdir /srv/d", lambda: write.other("dir", "/srv/d"))
    write.line("A", "mkfifo /srv/d/pipe", lambda: write.other("other", "/srv/d/pipe"))
    write.line("A", "rm /srv/none", status="1")
    write.see("/srv/s", BROKEN)
    write.other("gone", "/srv/l")


def write_spool(spool):
    """Writes lines that are as typed, observed, hidden, missing, cut off and not told apart."""
    write = Writing(spool)
    for session, name in [("A", HARM[0]), ("B", HARM[4]), ("C", "Ann B")]:
        write.start(session, name)
    write.see("/srv/p", b"one\n")
    write_harm(write)
    write.line("A", None, lambda: write.see("/srv/q", b"hidden\n"))
    write.begin("A", "sed -i s/h/j/ /srv/q")
    write.begin("B", "date > /srv/r")
    write.see("/srv/q", b"jidden\n")
    write.see("/srv/r", b"Fri\n")
    write.end("B", "date > /srv/r")
    write.end("A", "sed -i s/h/j/ /srv/q", "1")
    write_links(write)
    write.counts["C"] += 3
    write.line("C", "cat /srv/s /srv/p | sort > /srv/d/s", lambda: write.see("/srv/d/s", b"s\n"))
    write.begin("B", "exec sh")
    spool.write()
    with open(f"{spool.at}/unseen", "w", encoding="ascii") as file:
        file.write("/srv/d\n")
