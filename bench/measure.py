"""What the benchmarks share: scripts as documents, and measured runs of the built program."""
import json
import os
import re
import shutil
import subprocess
import sys
import tempfile

TOP = os.path.dirname(os.path.dirname(os.path.abspath(__file__)))
PROGRAM = f"{TOP}/crates/retro/out/retro"


def script(tree, sessions, lines):
    """The document of a script, whose lines are pairs of a session and a text."""
    return json.dumps({
        "script": 1,
        "tree": tree,
        "sessions": [[sid, "/", 0, []] for sid in sessions],
        "lines": [[number, sid, text] for number, (sid, text) in enumerate(lines, 1)],
    })


def build():
    """Builds the program, and runs it once on an empty script."""
    empty = script([], [], []).encode()
    subprocess.run([f"{TOP}/retro", "replay"], input=empty, stdout=subprocess.DEVNULL, check=True)


EMPTY_LOG = b'{"from":1,"lines":[],"log":2,"sessions":[],"tree":[]}'


def copy_to(room):
    """Copies the repository and what its checks kept."""
    listed = ["git", "ls-files", "-z", "--cached", "--others", "--exclude-standard"]
    names = subprocess.run(listed, cwd=TOP, check=True, capture_output=True).stdout.decode()
    for name in filter(None, names.split("\0")):
        if os.path.exists(f"{TOP}/{name}"):
            os.makedirs(os.path.dirname(f"{room}/{name}"), exist_ok=True)
            shutil.copy2(f"{TOP}/{name}", f"{room}/{name}")
    for crate in os.listdir(f"{TOP}/crates"):
        if os.path.isdir(f"{TOP}/crates/{crate}/out"):
            subprocess.run(["cp", "-a", f"{TOP}/crates/{crate}/out", f"{room}/crates/{crate}/"],
                           check=True)


def built_aside(room, source, crates, words):
    """Builds the program of the file `NAME.rt.txt`, given from the repository's top, over some
    crates in a copy of the repository, and runs it once on an empty log. Returns its file."""
    name = os.path.basename(source).removesuffix(".rt.txt")
    copy_to(room)
    with open(f"{room}/crates.txt", "a") as file:
        file.write(f"{name}: {crates}\n")
    crate = f"{room}/crates/{name}"
    os.makedirs(f"{crate}/src")
    shutil.copy(f"{TOP}/{source}", f"{crate}/src/main.rt")
    run = subprocess.run(["rt", "run", "--", *words], cwd=crate, input=EMPTY_LOG,
                         capture_output=True)
    if run.returncode != 0:
        sys.exit(run.stdout.decode() + run.stderr.decode())
    return f"{crate}/out/{name}"


# Runs a program below a small process of its own, since a child's peak memory includes its
# parent's. So no peak below that of the small parent, some 10 MB, can be measured.
MEASURE = """
import os, subprocess, sys, time
given = open(sys.argv[1], "rb")
start = time.perf_counter()
null = subprocess.DEVNULL
child = subprocess.Popen(sys.argv[2:], stdin=given, stdout=null, stderr=null)
_, status, usage = os.wait4(child.pid, 0)
print(time.perf_counter() - start, usage.ru_maxrss / 1024, os.waitstatus_to_exitcode(status))
"""


def measured(words, given, room, wanted):
    """The seconds and the peak megabytes of a run, which must end with a wanted status."""
    parts = [sys.executable, "-S", "-c", MEASURE, given, *words]
    said = subprocess.run(parts, cwd=room, capture_output=True, text=True, check=True).stdout
    seconds, memory, status = said.split()
    if int(status) not in wanted:
        sys.exit(f"{words[0]} ended with {status}")
    return float(seconds), float(memory)


def instructions(document, command="replay"):
    """The millions of instructions of a run of the program, as callgrind counts them."""
    return counted([PROGRAM, command], document.encode())


def counted(words, given):
    """The millions of instructions of a run of some words, as callgrind counts them."""
    with tempfile.TemporaryDirectory() as room:
        tool = ["valgrind", "--tool=callgrind", f"--callgrind-out-file={room}/out"]
        run = subprocess.run(tool + words, input=given, stdout=subprocess.DEVNULL,
                             stderr=subprocess.PIPE)
    return int(re.search(rb"Collected\s*:\s*(\d+)", run.stderr)[1]) / 1e6


def ratio(now, before):
    return f"{now / before:5.1f}x" if before else "      "
