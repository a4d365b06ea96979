"""The constants of the Rust crate, with the values that the Rust compiler gives them, in a project that depends on it."""
import os
import re
import subprocess
import tempfile

from header import ARGUMENTS, parsed

MANIFEST = """[package]
name = "elsewhere"
version = "0.0.0"
edition = "2021"

[dependencies]
brb = { path = "%s" }
"""


def printing(source):
    """The statements of a Rust program that prints a line for each public constant and function of constants.rs, under the
    header's name."""
    for name, kind in re.findall(r"^pub const ([A-Z0-9_]+): (&str|u64|usize) =", source, re.M):
        yield 'println!("BRB_%s {%s}", brb::%s);' % (name, ":?" if kind == "&str" else "", name)
    for name, argument in re.findall(r"^pub const fn (\w+)\((\w+): \w+\)", source, re.M):
        values = ", ".join("brb::%s(%d)" % (name, a) for a in ARGUMENTS)
        yield 'println!("BRB_%s(%s)%s", %s);' % (name.upper(), argument, " {}" * len(ARGUMENTS), values)


def public(source):
    """How many public items the file has: each is to be printed."""
    return len(re.findall(r"^pub ", source, re.M))


def values(crate):
    """The crate's constants, as header.values has the header's."""
    with open(os.path.join(crate, "src", "constants.rs"), encoding="utf-8") as f:
        source = f.read()
    statements = list(printing(source))
    if len(statements) != public(source):
        raise SystemExit("constants: rust/src/constants.rs has a public item that is not read")
    with tempfile.TemporaryDirectory() as folder:
        os.mkdir(os.path.join(folder, "src"))
        with open(os.path.join(folder, "Cargo.toml"), "w", encoding="utf-8") as f:
            f.write(MANIFEST % crate)
        with open(os.path.join(folder, "src", "main.rs"), "w", encoding="utf-8") as f:
            f.write("fn main() {\n%s\n}\n" % "\n".join(statements))
        command = ["cargo", "run", "--offline", "--quiet", "--target-dir", os.path.join(folder, "target")]
        return parsed(subprocess.run(command, cwd=folder, check=True, stdout=subprocess.PIPE, text=True).stdout)
