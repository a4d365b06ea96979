#!/usr/bin/env python3
"""Wrong edits of definition and code alike that stand in more than one crate, so that no crate's must-fail can hold them.

Each file of .ci/edits is applied to a copy of the crate of the law that has to refuse it and of the crates below, and rt ci
runs there, which proves the crates that the edit changes and those above them: the others it takes as the gate has just proved
them. The law's crate alone has to fail, and its first error has to stand in the law. An edit is

    # why
    law: CRATE MODULE NAME
    file: a file from the repository's root
    old: a part of a line that stands there once
    new: what is put in its place

with file, old and new as often as needed. The last line that is printed says how many were refused.
"""
import glob
import os
import re
import shutil
import subprocess
import sys
import tempfile

ROOT = os.path.dirname(os.path.dirname(os.path.abspath(__file__)))


def fields(path):
    """The law's three words, and the places to change: file, old, new."""
    lines = [line.rstrip("\n") for line in open(path, encoding="utf-8") if not line.startswith("#")]
    told = [line.split(": ", 1) for line in lines if line]
    law = dict(told[:1])["law"].split()
    places = told[1:]
    assert [key for key, _ in places] == ["file", "old", "new"] * (len(places) // 3), path
    values = [value for _, value in places]
    return law, list(zip(values[::3], values[1::3], values[2::3]))


def listed():
    """The lines of crates.txt, by the names of their crates."""
    lines = open(os.path.join(ROOT, "crates.txt"), encoding="utf-8").read().splitlines()
    return {re.match(r"\w+", line)[0]: line for line in lines if re.match(r"\w", line)}


def down_from(crate, lines):
    """The names of the crate and of the repository's crates below it."""
    found = {crate}
    for name in lines[crate].split(":", 1)[1].split():
        if name in lines and name not in found:
            found |= down_from(name, lines)
    return found


def copied(crate, copy):
    """A repository of the crate and those below it, without what earlier runs left and without edits of their own."""
    lines = listed()
    names = down_from(crate, lines)
    for name in names:
        shutil.copytree(os.path.join(ROOT, "crates", name), os.path.join(copy, "crates", name), ignore=shutil.ignore_patterns("out", "must-fail"))
    with open(os.path.join(copy, "crates.txt"), "w", encoding="utf-8") as out:
        out.writelines(line + "\n" for name, line in lines.items() if name in names)
    if os.path.exists(os.path.join(ROOT, "HANDLES")):
        shutil.copy(os.path.join(ROOT, "HANDLES"), copy)


def apply(copy, places):
    for name, old, new in places:
        path = os.path.join(copy, name)
        text = open(path, encoding="utf-8").read()
        if text.count(old) != 1:
            sys.exit(f"across: {name} has {text.count(old)} times: {old}")
        with open(path, "w", encoding="utf-8") as out:
            out.write(text.replace(old, new))


def run(folder, *words):
    """What a command says, and its status."""
    ran = subprocess.run(words, cwd=folder, stdout=subprocess.PIPE, stderr=subprocess.STDOUT, stdin=subprocess.DEVNULL, text=True, errors="replace")
    return ran.stdout, ran.returncode


def first_error(said, crate):
    """The first error that rt ci says of a crate, from the crate's folder on."""
    part = said.split(f"== {crate}\n", 1)[-1].split("\n== ", 1)[0]
    errors = re.findall(r"^(?:\./)?(\S+:\d+:\d+: error\b.*)", part, re.M)
    return errors[0] if errors else "no error"


def refused(path):
    """Whether the law refuses the edit, and by what error."""
    (crate, module, name), places = fields(path)
    with tempfile.TemporaryDirectory() as copy:
        copied(crate, copy)
        apply(copy, places)
        # A changed line may have another layout, which rt ci would refuse in the law's place.
        for changed in sorted({os.path.join(*place.split("/")[:2]) for place, _, _ in places}):
            run(os.path.join(copy, changed), "rt", "fmt")
        said, status = run(copy, "rt", "ci")
    failed = re.findall(r"^rt: (\w+) NOT PROVED$", said, re.M)
    first = first_error(said, failed[0] if failed else crate)
    law = status != 0 and failed == [crate] and first.startswith(f"proofs/{module}.antt:") and f"`{name}`" in first
    return law, f"{' '.join(failed) or 'nothing failed'}: {first}"


def main():
    edits = sorted(glob.glob(os.path.join(ROOT, ".ci", "edits", "*.edit")))
    for path in edits:
        law, error = refused(path)
        print(f"across: {os.path.basename(path)}: {error[:300]}", flush=True)
        if not law:
            sys.exit(f"across: {os.path.basename(path)} is not refused by its law")
    print(f"across: {len(edits)} refused")


main()
