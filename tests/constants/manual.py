"""The tables of docs/MANUAL.md that name constants.

A column called `constant` or `its constant` holds a constant in each row, and the column to its left its value: a number, a
text, an expression in the constant's argument, or, in a column of bits, the bits that it masks."""
import re

from header import ARGUMENTS

BITS = {"bits", "filter bit"}
CONSTANTS = {"constant", "its constant"}


def cells(line):
    return [cell.strip() for cell in line.strip().strip("|").split("|")]


def tables(text):
    """Each table: its header's cells, and its rows as a line's number and its cells."""
    found, rows = [], None
    for number, line in enumerate(text.splitlines(), 1):
        if not line.startswith("|"):
            rows = None
        elif rows is None:
            rows = []
            found.append((cells(line), rows))
        elif not re.fullmatch(r"[|\- ]+", line):
            rows.append((number, cells(line)))
    return found


def mask(cell):
    """The mask of bits as 7:6 or 5."""
    high, _, low = cell.partition(":")
    low = low or high
    return ((1 << (int(high) - int(low) + 1)) - 1) << int(low)


def value(cell, argument):
    """What a cell says: a number, a text, or the values of an expression on ARGUMENTS, within 64 bits."""
    if cell.startswith('"'):
        return cell
    if not re.fullmatch(r"(0x[0-9A-Fa-f]+|\d+|<<|>>|[-+*&()\s]|%s)+" % (argument or r"\d"), cell):
        raise ValueError("%s is no value" % cell)
    if argument is None:
        return int(eval(cell, {"__builtins__": {}}))
    results = (eval(cell, {"__builtins__": {}}, {argument: a}) for a in ARGUMENTS)
    return tuple(int(r) % 2**64 for r in results)


def pairs(text):
    """Each constant that a table names, with what the table says of it: line, name, value or None where it is unreadable."""
    for head, rows in tables(text):
        for column in (i for i, name in enumerate(head) if name in CONSTANTS):
            for line, row in rows:
                yield (line, *pair(head, row, column))


def pair(head, row, column):
    m = re.fullmatch(r"`(BRB_[A-Z0-9_]+)(?:\((\w+)\))?`", row[column]) if column < len(row) else None
    if not m:
        return None, None
    name = m[1] + ("(%s)" % m[2] if m[2] else "")
    try:
        cell = row[column - 1]
        return name, mask(cell) if head[column - 1] in BITS else value(cell, m[2])
    except (ValueError, SyntaxError, NameError):
        return name, None


def sections(text):
    return re.findall(r"^## (.*)$", text, re.M)


def blocks(text, kind):
    """The fenced blocks of this kind."""
    return re.findall(r"^```%s\n(.*?)^```$" % re.escape(kind), text, re.M | re.S)
