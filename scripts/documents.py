"""The tables of the documents, for the checks."""
import re

import sources


def tables(path):
    """The tables of a document, each with the heading above it and its rows, by column."""
    heading, columns, found = "", None, []
    for line in sources.read(path).splitlines():
        if line.startswith("#"):
            heading = line.lstrip("# ")
        if not line.startswith("|"):
            columns = None
        elif columns is None:
            columns = cells(line)
            found.append((heading, columns, []))
        elif not re.fullmatch(r"[|\s:-]*", line):
            found[-1][2].append(dict(zip(columns, cells(line))))
    return found


def cells(line):
    """The cells of a table's line. A bar behind a backslash belongs to its cell."""
    return [cell.strip() for cell in re.split(r"(?<!\\)\|", line)[1:-1]]


def rows(path, heading):
    """The rows of all tables under a heading."""
    return [row for at, _, found in tables(path) if at == heading for row in found]


def names(cell):
    """What stands in code type in a cell, outside links."""
    return re.findall(r"`([^`]+)`", re.sub(r"\[[^]]*\]\([^)]*\)", "", cell))
