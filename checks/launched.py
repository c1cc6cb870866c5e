"""The program that a launcher runs. Belongs to the other checks."""
import os
import subprocess
import sys


def newest_source(top):
    """When a source was changed last."""
    names = [f"{top}/crates.txt"]
    for folder, folders, files in os.walk(f"{top}/crates"):
        folders[:] = [name for name in folders if name != "out"]
        names += [f"{folder}/{name}" for name in files if name.endswith((".rt", ".antt"))]
    return max(os.stat(name).st_mtime_ns for name in names)


def launched(at):
    """The program itself: `at` may be a launcher, which builds it."""
    at = os.path.abspath(at)
    with open(at, "rb") as file:
        if file.read(4) == b"\x7fELF":
            return at
    said = subprocess.run([at, "check"], stdin=subprocess.DEVNULL, capture_output=True, check=False)
    if said.returncode == 70:
        sys.exit(said.stderr.decode())
    top, name = os.path.split(at)
    proved = f"{top}/crates/{name}/out/{name}"
    is_proved = os.path.exists(proved) and os.stat(proved).st_mtime_ns >= newest_source(top)
    return proved if is_proved else f"{top}/out/{name}"
