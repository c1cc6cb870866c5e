"""Random lines of the whole grammar, for `compare_with_dash`.

In a text here STATUS and STATUS_IN_BRACES stand for the parameters `$?` and `${?}`, and COMPOUND
for nothing, after an `if` or a `for`: `for_profile` and `for_dash` say what each shell gets.

Variables: those of ANY have any value, f has paths or is unset, h has the directory where a script
begins. Directories: d and d/z always stay, and only they are entered, since a session is in a path
and a process in a directory that may be moved. The files p and q are written by the later stages of
pipes alone.
"""
ANY = ["x", "x", "y", "y", "i", "i", "if", "in"]
STATUS, STATUS_IN_BRACES, COMPOUND = "\x01", "\x02", "\x03"
# `utilities_for_dash.sh` says why.
STATUS_OF_DASH = "$(($?==2?1:$?==3?2:$?))"

FILES = ["f", "g", "h", "d/x", "d/y", "./f", "d//x", "d/./y", "d/z/w"]
# Paths that commands create, move and remove.
MOVING = ["e", "e/a", "e/b", "e/a/c", "k", "k/e", "f", "g"]
# Paths that are never directories: dash opens a directory for reading, where the profile has a
# fault.
READABLE = ["d/x", "d/y", "h", "none", "d/none", "d/x/none", "/dev/null"]
TARGETS = [*FILES, "e", "k", "d", "none/x", "d/x/none", "/dev/null"]
DIRECTORIES = ["d", "d/z", "z", "~", "~/d", "~/d/z", "~/d/..", "$h", "none", "d/x", "."]

PLAIN = ["a", "b", "hello", "...", "*x", "?", "[a]", "1", "07", "a,b", "%d", "if", "done", "-n",
         "--",
         "{", "}", "!", "a#b", "=", "a=b", "a~b", "^", "@", "x", "]", "é"]
SINGLE = ["a  b", "", "$x", '"', "\\", "#", ";|&", "`", "~", "a\nb", "\\n", "<", "$?", " "]
DOUBLE = ["a  b", "", "$x", "${x}$y", "<$i>", "\\$x", "\\a", '\\"', "\\\\", "'", "\\`", "a$", "$",
          "~",
          "#", ";", STATUS, STATUS_IN_BRACES, " ", "$ ", "$y "]
ESCAPED = ["a", " ", "$", "\\", "'", '"', "#", "~", ";", "&", "|", "<", ">", "{", "!", "*", "`",
           "="]
PARAMETERS = ["$x", "${x}", "$y", "${y}", "$i", "$if", "${in}", "$f", STATUS, STATUS_IN_BRACES]
TILDES = ["~", "~/a", '~/"a"', "~root", "~root/a", "~nosuch", "~nosuch/a", "~$x", '~""', '~"a"',
          "\\~",
          "~/$x", "~:a", "~root:a", "~\\root", "~/~"]
DOLLARS = ["$", "a$", "$.", "$/", "$,a", '$"a"', "$'$x'", "$%", "$=", "${x}$"]

COMMENTS = ["#", "# a", "# it's", '# "', "# `a` $(", "#a; echo b", "##", "# a \\"]
# Texts outside the grammar that are syntax errors for dash too.
OUTSIDE = [
    "fi", "then", "else", "do", "echo a | | cat", "; echo a", "echo a ;; echo b", "| cat",
    "echo a &&",
    "&& echo a", "echo a && || echo b", "echo a | ! cat", "echo a >", "echo a > ; echo b",
    "(echo a",
    "echo a )", "echo a; }", 'echo "a', "echo 'a", "echo ${x", "if true; then fi",
    "if; then echo a; fi",
    "if true; echo a; fi", "if true; then echo a; else fi", "if true; then echo a; fi echo b",
    "if true then echo a; fi", "for i in a; do done", "for i in a; do", "for i in a; echo $i; done",
    "for i a; do echo b; done", "for 1 in a; do echo b; done", "for i in a do echo b; done",
]


def for_profile(text):
    return text.replace(STATUS, "$?").replace(STATUS_IN_BRACES, "${?}").replace(COMPOUND, "")


def for_dash(text):
    text = text.replace(STATUS, STATUS_OF_DASH).replace(STATUS_IN_BRACES, STATUS_OF_DASH)
    return text.replace(COMPOUND, "")


def quoted(text):
    """The text as one word in single quotes."""
    return "'" + text.replace("'", "'\\''") + "'"


class Words:
    """Chooses words."""

    def __init__(self, choose):
        self.choose = choose
        self.one_of = choose.choice

    def happens(self, chance):
        return self.choose.random() < chance

    def some(self, make, least, most):
        return [make() for _ in range(self.choose.randint(least, most))]

    def options(self, *letters):
        return [self.one_of(letters)] if self.happens(0.4) else []

    def spelled(self, text):
        """A word that expands to a text of plain characters and newlines, in one spelling."""
        if text and "\n" not in text and self.happens(0.7):
            return text
        cut = self.choose.randint(0, len(text))
        return self.spelled_part(text[:cut]) + self.spelled_part(text[cut:])

    def spelled_part(self, part):
        if "\n" in part or not part:
            return self.one_of(['"' + part + '"', quoted(part)])
        escaped = "".join("\\" + character for character in part)
        return self.one_of([part, '"' + part + '"', quoted(part), escaped])

    def piece(self):
        return self.one_of([
            self.one_of(PLAIN), self.one_of(PLAIN), self.one_of(PARAMETERS),
            quoted(self.one_of(SINGLE)),
            '"' + self.one_of(DOUBLE) + '"', "\\" + self.one_of(ESCAPED),
        ])

    def word(self):
        if self.happens(0.1):
            return self.one_of(TILDES)
        if self.happens(0.05):
            return self.one_of(DOLLARS)
        return "".join(self.some(self.piece, 1, self.one_of([1, 1, 2, 3])))

    def path(self, among):
        """A word that names a path, or one that may give no field."""
        if self.happens(0.1):
            return self.one_of(["$f", '"$f"', "${f}", "~/e", "~/f", '~/"g"', "~/d/../g", "$h/d/x"])
        return self.spelled(self.one_of(among))


class Commands(Words):
    """Chooses simple commands, as lists of words."""

    def spans(self):
        """A list for `cut`, in any order, whose spans may overlap."""
        def span():
            first = self.choose.randint(1, 5)
            return self.one_of([f"{first}", f"{first}-", f"-{first}",
                                f"{first}-{first + self.choose.randint(0, 3)}"])
        return ",".join(self.some(span, 1, 4))

    def reader(self, files):
        """A command that reads files, and writes text."""
        some = self.some(lambda: self.path(files), 0, 2)
        pattern = self.spelled(self.one_of(["a", "b", ",", "hello", "a\nb"]))
        counted = self.some(lambda: self.spelled(self.one_of(["d/x", "h", "none", "-"])), 1, 2)
        return self.one_of([
            ["cat", *self.options("-u", "--", "-uu", "-k"), *some],
            ["cut", *self.one_of([["-b", self.spans()], ["-b1,3"], ["-d", ",", "-f" + self.spans()],
                                  ["-sd,", "-f", self.spans()], ["-d", "' '", "-f", '"1 3"'],
                                  ["-k"]]), *some],
            ["grep", self.one_of(["-F", "-Fv", "-Fx", "-Fq", "-F -v -x", "-Fk"]), pattern, *some],
            # GNU's grep reads nothing for `-v` and an empty pattern, and prints no count then.
            ["grep", self.one_of(["-F", "-Fx", "-Fq", "-F -v -x"]), "''", *some],
            # GNU's grep writes a count for a directory, so none of these is one.
            ["grep", self.one_of(["-Fc", "-Fvc"]), pattern, *counted],
        ])

    def mover(self):
        """A command that creates, moves or removes files."""
        paths = [self.spelled(path) for path in self.choose.sample(MOVING, 3)]
        one = self.path(MOVING)
        # A quoted `$f` isn't among what is removed: `rm -f ''` is a fault of the profile alone.
        removed = [*paths[:self.choose.randint(0, 2)], *self.options("$f")]
        # Sources have different last names: GNU's `cp` and `mv` never overwrite what they just
        # made.
        sources = self.choose.sample(["f", "g", "h"], 2)
        return self.one_of([
            ["mkdir", *self.options("-p", "-pp", "--", "-k"), *paths[:self.choose.randint(0, 2)]],
            ["mkdir", *self.options("-p"), one],
            ["rm", *self.options("-r", "-f", "-rf", "-fR", "--", "-k"), *removed],
            ["cp", *self.options("--", "-k"), *paths[:2]],
            ["mv", *self.options("-f", "--", "-k"), *paths[:2]],
            ["cp", "d/x", one], ["mv", "h", one], ["cp", one, "k"], ["mv", one, "k"],
            [self.one_of(["cp", "mv"]), *sources, self.one_of(["e", "k", "d/z", "none"])],
        ])

    def tester(self):
        """A command whose result is its status."""
        one = self.path([*FILES, *MOVING, "none", "/dev/null", "d"])
        words = self.some(self.word, 0, 1)
        return self.one_of([
            ["test", self.one_of(["-e", "-f", "-d", "-n", "-z"]), one],
            ["test", '"$x"', self.one_of(["=", "!="]), self.one_of(["a", '"$y"', "''"])],
            ["test", "$x", "=", "a"],
            ["test", STATUS, "=", self.one_of("012")],
            ["true", *words], ["false", *words], ["true"], ["false"],
        ])

    def drained(self, files):
        """A command that reads its input to the end before it does anything."""
        kind = self.choose.random()
        if kind < 0.3:
            return ["echo", *self.options("-n"), *self.some(self.word, 0, 3)]
        if kind < 0.55:
            return self.reader(files)
        if kind < 0.7:
            return self.mover()
        if kind < 0.85:
            return self.tester()
        return self.one_of([
            ["tee", *self.options("-a", "-k"), self.path([*FILES, "e", "k"])], ["tee"], ["pwd"],
            ["cd", self.one_of(DIRECTORIES)], ["cd", *self.options(*DIRECTORIES)],
            ["id", "-u", self.spelled(self.one_of(["root", "nosuch"]))],
        ])

    def undrained(self):
        """A command that dash runs without waiting for its input. `:` gets no redirection: dash,
        which isn't interactive here, ends at a failed redirection of it."""
        return self.one_of([
            [self.spelled("nosuch"), *self.some(self.word, 0, 2)], ["$nope"], ['"$nope"', "a"],
            ["[", '"$x"', self.one_of(["=", "!="]), self.one_of(["a", '"$y"']), "]"],
            ["[", "-f", self.spelled(self.one_of(FILES)), "]"],
            ["[", self.word_of_one_field(), "]"],
        ])

    def word_of_one_field(self):
        return '"' + self.one_of(["", "a", "$x", "!", STATUS]) + '"'

    def assignments(self):
        if self.happens(0.3):
            one = self.spelled(self.one_of([*FILES, *MOVING, "none"]))
            return ["f=" + self.one_of([one, one, one, "'e k'", "'f  none'"])]
        return [self.one_of(ANY) + "=" + self.one_of([self.word(), self.word(), ""])
                for _ in range(self.one_of([1, 1, 2]))]

    def redirected(self, words, targets):
        """The command with redirections among its words."""
        items = list(words)
        for _ in range(self.one_of([0, 0, 0, 1, 1, 2]) if words else self.one_of([1, 2])):
            if self.happens(0.3):
                item = self.one_of(["<", "< "]) + self.spelled(self.one_of(READABLE))
            else:
                item = self.one_of([">", ">>", "> ", ">> "]) + self.path(targets)
            items.insert(self.choose.randint(0, len(items)), item)
        return self.joined(items)

    def joined(self, items):
        """The text of a command. A word of digits alone has a blank after it."""
        text = items[0]
        for item in items[1:]:
            sticks = item[0] in "<>" and text[-1].isalpha() and self.happens(0.3)
            text += ("" if sticks else self.one_of([" ", " ", " ", "  ", "\t"])) + item
        return text


class Lines(Commands):
    """Chooses lines."""

    def simple(self):
        """A simple command, alone or as the first stage of a pipe."""
        kind = self.choose.random()
        if kind < 0.12:
            return self.joined(self.assignments())
        if kind < 0.16:
            return self.redirected([], TARGETS)
        if kind < 0.2:
            return self.one_of([":", ": $x", ": ~ a"])
        if kind < 0.3:
            return self.redirected(self.undrained(), TARGETS)
        words = self.drained([*FILES, *MOVING, "none", "/dev/null", "-"])
        # What `tee` writes to a file and to its output isn't appended to one file in dash.
        return self.joined(words) if words[0] == "tee" else self.redirected(words, TARGETS)

    def alone(self):
        if self.happens(0.05):
            return "cat p q"
        if self.happens(0.05):
            return self.one_of(["x='echo -n'; $x a b", 'x=cat; "$x" f', "x='test -d'; $x d",
                                "x=pwd; $x"])
        return self.simple()

    def later(self, at):
        """A stage that waits for the one before. The shell makes its redirections at once, so they
        go to files that no other stage names."""
        words = self.drained([*FILES, *MOVING, "none", "/dev/null", "-", "-"])
        target = [self.one_of([">", ">>"]) + "pq"[at]] if self.happens(0.2) else []
        return self.joined([*words, *target])

    def pipe(self):
        if self.happens(0.3):
            # The first stage has no effect and no diagnostics, so nothing has to wait for it.
            quiet = self.joined(self.one_of([
                ["pwd"], ["true"], ["echo", *self.some(self.word, 0, 3)], self.assignments()]))
            return quiet + self.bar() + self.simple()
        stages = [self.simple(), *[self.later(at) for at in range(self.one_of([1, 1, 2]))]]
        if self.happens(0.1):
            stages.append(self.joined(self.assignments()))
        return self.bar().join(stages)

    def bar(self):
        return self.one_of([" | ", " | ", "|"])

    def pipeline(self, depth):
        negation = "! " if self.happens(0.1) else ""
        kind = self.choose.random()
        if kind < (0.14, 0.08, 0.02, 0)[depth]:
            return negation + self.conditional(depth + 1)
        if kind < (0.28, 0.16, 0.04, 0)[depth]:
            return negation + self.loop(depth + 1)
        return negation + (self.pipe() if kind > 0.8 else self.simple())

    def and_or(self, depth):
        if self.happens(0.04):
            return "HOME=" + self.one_of(["'a  b'", "d", "/none", "~"]) + "; echo ~ ~/x; HOME=$h"
        if self.happens(0.06):
            return self.alone()
        text = self.pipeline(depth)
        for _ in range(self.one_of([0, 0, 0, 1, 1, 2]) if depth < 2 else 0):
            text += self.one_of([" && ", " || ", "&&", "||"]) + self.pipeline(depth)
        return text

    def commands(self, depth):
        """A list."""
        parts = self.some(lambda: self.and_or(depth), 1, 3 if depth == 0 else 2)
        return self.one_of(["; ", "; ", ";", " ;  "]).join(parts)

    def ended(self, depth):
        """A list, with what separates it from the reserved word after it."""
        text = self.commands(depth)
        if text.endswith(COMPOUND) and self.happens(0.5):
            return text + " "
        return text + self.one_of(["; ", "; ", ";"])

    def conditional(self, depth):
        text = f"if {self.ended(depth)}then {self.ended(depth)}"
        for _ in range(self.one_of([0, 0, 0, 1])):
            text += f"elif {self.ended(depth)}then {self.ended(depth)}"
        if self.happens(0.4):
            text += f"else {self.ended(depth)}"
        return text + "fi" + COMPOUND

    def loop(self, depth):
        if self.happens(0.3):
            name, words = "f", self.some(lambda: self.spelled(self.one_of([*FILES, *MOVING])), 0, 3)
        else:
            name, words = self.one_of(ANY), self.some(self.word, 0, 3)
        return f"for {self.joined([name, 'in', *words])}; do {self.ended(depth)}done{COMPOUND}"

    def continued(self, text):
        """The text with a backslash and a newline in it, where they are removed."""
        at = self.choose.randint(0, len(text))
        if any(mark in text for mark in "'#") or text[:at].endswith("\\"):
            return text
        return text[:at] + "\\\n" + text[at:]

    def line(self):
        kind = self.choose.random()
        if kind < 0.05:
            return self.one_of(["", " ", "\t "])
        if kind < 0.08:
            return self.one_of(COMMENTS)
        text = self.one_of(["", "", "", " ", "\t"]) + self.commands(0)
        if self.happens(0.1):
            text = self.continued(text)
        if self.happens(0.1):
            text += self.one_of([";", " ;", "; "])
        if self.happens(0.05):
            text += " " + self.one_of(COMMENTS)
        return text

    def script(self):
        """Lines, of which most are followed by one that prints their status."""
        lines = []
        for _ in range(self.choose.randint(4, 8)):
            lines.append(self.one_of(OUTSIDE) if self.happens(0.04) else self.line())
            if self.happens(0.7):
                lines.append("echo " + self.one_of([STATUS, STATUS_IN_BRACES]))
        return lines
