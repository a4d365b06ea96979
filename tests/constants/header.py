"""The constants of include/brb.h, with the values that the C compiler gives them."""
import os
import re
import subprocess
import tempfile

# What a macro of one argument is tried on: ends of places and registers, sizes, a BRBINF of session S1, and every bit at
# once, as far as three times that is below 2^64.
ARGUMENTS = [0, 1, 3, 8, 31, 64, 0x0000012C00000843, 2**62 - 1]

# Macros that say nothing of the model: the guard, what the header builds its constants with, and a question.
HELPERS = {"BRB_H", "BRB_NUMBER", "BRB_BIT", "BRB_FIELD", "BRB_IS_REFUSED"}


def run(*command):
    return subprocess.run(command, check=True, capture_output=True, text=True).stdout


def macros(path):
    """Each macro of the header: its name, and its argument or None."""
    found = {}
    for line in run("gcc", "-E", "-dM", "-x", "c", path).splitlines():
        m = re.match(r"#define (BRB_\w+)(?:\((\w+)\))?(?= |$)", line)
        if m and m[1] not in HELPERS:
            found[m[1]] = m[2]
    return found


def printing(name, argument):
    """A C statement that prints a line for a macro: its name and its value, or its values on ARGUMENTS."""
    if argument:
        values = ", ".join("(unsigned long long)%s(%dULL)" % (name, a) for a in ARGUMENTS)
        return 'printf("%s(%s)%s\\n", %s);' % (name, argument, " %llu" * len(ARGUMENTS), values)
    return 'PRINT("%s", %s);' % (name, name)


# A text is told from a number by its type.
PROGRAM = """#include "%s"
#include <stdio.h>
static void text(const char *name, const char *t) { printf("%%s \\"%%s\\"\\n", name, t); }
static void number(const char *name, unsigned long long n) { printf("%%s %%llu\\n", name, n); }
#define PRINT(name, x) _Generic((x), char *: text, default: number)(name, x)
int main(void) {
%s
return 0;
}
"""


def parsed(lines):
    """Lines of a name and its values, as a dictionary: a number, a text with its quotes, or a tuple of numbers."""
    found = {}
    for line in lines.splitlines():
        name, *values = line.split()
        numbers = tuple(v if v.startswith('"') else int(v) for v in values)
        found[name] = numbers if "(" in name else numbers[0]
    return found


def values(path):
    """The header's constants: by name, or by name and argument as BRB_REGISTER_BRBINF(m)."""
    statements = "\n".join(printing(name, argument) for name, argument in sorted(macros(path).items()))
    with tempfile.TemporaryDirectory() as folder:
        source, program = os.path.join(folder, "print.c"), os.path.join(folder, "print")
        with open(source, "w", encoding="utf-8") as f:
            f.write(PROGRAM % (path, statements))
        run("gcc", "-std=c11", source, "-o", program)
        return parsed(run(program))


def functions(path):
    """The names of the functions that the header declares."""
    with open(path, encoding="utf-8") as f:
        text = re.sub(r"/\*.*?\*/", "", f.read(), flags=re.S)
    return set(re.findall(r"\b(brb_\w+)\(", text))
