"""Planted errors: a wrong number, a lost row, a lost or a new constant, one at a time, in copies of what is compared."""
import manual


def other(value):
    """A value of the same kind that is not the same."""
    if isinstance(value, tuple):
        return (value[0] + 1,) + value[1:]
    return value + 1 if isinstance(value, int) else '"other"'


def changed(constants):
    """Copies of a dictionary of constants, each with one error, and the error in words."""
    for name in constants:
        yield "%s has another value" % name, {**constants, name: other(constants[name])}
        yield "%s is missing" % name, {n: v for n, v in constants.items() if n != name}
    yield "one is new", {**constants, "BRB_NEW": 1}


def with_line(lines, number, line):
    """The text with another line there, or with none."""
    return "\n".join(lines[: number - 1] + ([] if line is None else [line]) + lines[number:])


def changed_number(row, column):
    """A row whose cell in this column has a 9 behind its last digit."""
    cells = row.split("|")
    digits = [i for i, c in enumerate(cells[column]) if c in "0123456789abcdefABCDEF"]
    cut = digits[-1] + 1
    cells[column] = cells[column][:cut] + "9" + cells[column][cut:]
    return "|".join(cells)


def changed_manual(text):
    """Copies of the manual, each with one error in a table, and the error in words."""
    lines = text.splitlines()
    for head, rows in manual.tables(text):
        for column in (i for i, name in enumerate(head) if name in manual.CONSTANTS):
            for number, row in rows:
                line = lines[number - 1]
                yield "line %d: another number" % number, with_line(lines, number, changed_number(line, column))
                yield "line %d: no constant" % number, with_line(lines, number, line.replace(row[column], ""))
    for number, name in only_once(text):
        yield "line %d: no row of %s" % (number, name), with_line(lines, number, None)


def only_once(text):
    """The lines of constants that one table alone names, so that a lost row is a lost constant."""
    named = [(line, name) for line, name, _ in manual.pairs(text)]
    for line, name in named:
        if sum(1 for _, n in named if n == name) == 1:
            yield line, name


def tried(constants, text, rust, of_manual, of_crate):
    """How many errors were planted, and those that the comparison did not find."""
    cases = [(error, of_manual(constants, copy)) for error, copy in changed_manual(text)]
    cases += [("header: " + error, of_manual(copy, text)) for error, copy in changed(constants)]
    cases += [("crate: " + error, of_crate(constants, copy)) for error, copy in changed(rust)]
    return len(cases), [error for error, problems in cases if not problems]
