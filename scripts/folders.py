"""Folders for the files of what is measured."""
import os
import tempfile

MEMORY = "/dev/shm"


def in_memory():
    """A new folder in memory where the machine has such, for what isn't about a disk. It goes when nobody holds it."""
    return tempfile.TemporaryDirectory(dir=MEMORY if os.access(MEMORY, os.W_OK | os.X_OK) else None)
