"""What valgrind counts while a program reads a text: it isn't troubled by other work on the machine."""
import os
import re
import shutil
import subprocess

import folders

INSTRUCTIONS = ["--tool=callgrind", "--callgrind-out-file=counts"], r"Collected : (\d+)"
ALLOCATIONS = ["--leak-check=no"], r"total heap usage: ([\d,]+) allocs"


def is_there():
    """Whether valgrind is installed."""
    return shutil.which("valgrind") is not None


def counted(what, command, text):
    """The count while the command reads the text, in a new folder, or an error where valgrind didn't count."""
    tool, pattern = what
    with folders.in_memory() as folder:
        path = os.path.join(folder, "input")
        with open(path, "wb") as file:
            file.write(text)
        with open(path, "rb") as file:
            ran = subprocess.run(["valgrind", *tool, *command], stdin=file, cwd=folder,
                                 stdout=subprocess.DEVNULL, stderr=subprocess.PIPE, text=True)
    found = re.search(pattern, ran.stderr)
    if ran.returncode != 0 or not found:
        raise RuntimeError("valgrind didn't count: %s" % ran.stderr[-300:])
    return int(found[1].replace(",", ""))
