"""Generated scripts for the benchmarks: each is a tree, the sessions, and lines of a session and a
text."""


def growing(size):
    return [], [1], [(1, "echo -n a >> f")] * size


def spread(size):
    tree = [[f"/d{at}"] for at in range(100)]
    lines = [(at % 100 + 1, f"echo -n a >> d{at % 100}/f{at // 100 % 100}") for at in range(size)]
    return tree, range(1, 101), lines


def tree_of(size):
    tree = []
    for at in range(size // 100):
        tree.append([f"/d{at}"])
        tree.extend([f"/d{at}/f{name}", "61"] for name in range(99))
    some = [at * (size // 100) // 5 for at in range(5)]
    lines = [(1, f"cat d{at}/f7 > d{at}/new") for at in some]
    lines += [(1, f"echo more >> d{at}/f9; cat d{at}/none") for at in some]
    return tree, [1], lines


MIX = (
    "cat d{0}/f",
    "grep -F 7,a d{0}/f | cut -d , -f 1,3 > d{0}/found",
    "cp d{0}/f d{0}/copy",
    "test -f d{0}/copy && x=d{0}",
    "if test \"$x\" = d{0}; then echo \"in $x\"; else echo 'elsewhere'; fi",
    "for i in a b $x; do echo $i >> d{0}/log; done",
)


def mix(size):
    text = "".join(f"{at},abcdefghij,klmnopqrst\n" for at in range(10)).encode().hex()
    tree = []
    for at in range(100):
        tree += [[f"/d{at}"], [f"/d{at}/f", text]]
    return tree, [1], [(1, MIX[at % len(MIX)].format(at // len(MIX) % 100)) for at in range(size)]


def moving(size):
    """Trees that are made, moved and removed, over ten sessions."""
    lines = []
    for at in range(size):
        tree = f"t{at // 5 % 50}"
        lines.append((at % 10 + 1, (
            f"mkdir -p {tree}/a/b",
            f"echo {at} > {tree}/a/b/f; echo {at} > {tree}/a/g",
            f"mv {tree} moved{tree}",
            f"cat moved{tree}/a/b/f moved{tree}/a/g",
            f"rm -r moved{tree}",
        )[at % 5]))
    return [], range(1, 11), lines


def lonely(size):
    """One line that no other line meets, and lines that append to many files."""
    tree, sessions, lines = spread(size - 1)
    return tree, sessions, [(1, "x=1")] + lines


def chain(size):
    """Each line copies what the line before it wrote."""
    lines = [(1, f"cat f{at % 10} > f{(at + 1) % 10}") for at in range(size - 1)]
    return [], [1], [(1, "echo a > f0")] + lines


def below(size):
    """Each line writes a file below the directory that the first line makes."""
    return [], [1], [(1, "mkdir d")] + [(1, f"echo a > d/f{at}") for at in range(size - 1)]


def status(size):
    """Each line asks for the status of the line before it."""
    lines = [(1, "echo $? > f"), (1, "test $? = 0 || echo x >> g")]
    return [], [1], [(1, "false")] + [lines[at % 2] for at in range(size - 1)]


def fan(size):
    """A fifth of the lines read one file of 10 KB, to which the first line appends."""
    text = "".join(f"{at},abcdefghij,klmnopqrst\n" for at in range(400)).encode().hex()
    tree = [["/d"], ["/d/f", text]] + [[f"/d{at}"] for at in range(100)]
    reads = "cut -d , -f 1,3 d/f | grep -F 7,k > d{0}/found"
    lines = [(1, "echo 7,x,k >> d/f")]
    for at in range(1, size):
        text = reads if at % 5 == 0 else "echo -n a >> d{0}/other"
        lines.append((1, text.format(at % 100)))
    return tree, [1], lines


# Of these an answer has the more to look for or to show, the longer the log is: sessions, causes,
# leaks, paths of which it isn't known what they hold, rows of a text, items of a list, and names of
# a directory.


def crowd(size):
    """Each line is of a session of its own, and half of them show what the line before wrote."""
    texts = ("echo {0} > f{1}", "cat f{1}")
    lines = [(at + 1, texts[at % 2].format(at, at // 2 % 100)) for at in range(size)]
    return [], range(1, size + 1), lines


def leading(size):
    """Of ten lines the first one leads to the other nine, which each show what it wrote."""
    lines = []
    for at in range(size):
        text = "cat f{0}" if at % 10 else "echo {0} > f{0}"
        lines.append((at % 7 + 1, text.format(at // 10)))
    return [], range(1, 8), lines


def leaking(size):
    """Each line shows something."""
    return [], [1, 2], [(at % 2 + 1, f"echo secret {at}") for at in range(size)]


def doubtful(size):
    """Of two lines the first one writes a path, to which the second one writes what isn't known."""
    texts = ("echo {0} > f{0}", "perl x >> f{0}")
    return [], [1], [(1, texts[at % 2].format(at // 2)) for at in range(size)]


def long_text(size):
    """A tenth of the rows of a long text go, and the text is shown."""
    text = "".join(f"{at:06} {'abcdefghij'[at % 10]}\n" for at in range(size))
    return [["/f", text.encode().hex()]], [1], [(1, "grep -Fv h f > g; mv g f"), (1, "cat f")]


def listed(size):
    """The lines write one of two files in turn, so that no line meets the one before it."""
    return [], [1, 2], [(at % 2 + 1, f"echo -n a > f{at % 2}") for at in range(size)]


def listing(size):
    """A line makes the last name of a directory with many, and the next line asks for the names."""
    tree = [["/d"], ["/d/e"], *([f"/d/e/f{at:06}", "61"] for at in range(size)), ["/e"]]
    return tree, [1], [(1, "echo a > d/e/last"), (1, "mv e d")]


CASES = {"growing": growing, "spread": spread, "tree": tree_of, "mix": mix, "moving": moving}
