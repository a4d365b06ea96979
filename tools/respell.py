#!/usr/bin/env python3
"""Brings the repository's own names to the spelling that Rattle's guide asks for, after port.py has turned the library's.

usage: respell.py [--table] [FOLDER]      at the top of the repository, or of FOLDER; --table prints old and new name, and writes nothing

Functions, lemmas, fields and variables are in snake case; types, and words that are Arm's own names of a field or a register
(PAUSED, CC, EnI), keep their capitals. A dash stays where it joins the names of two definitions, as in `decoded-exceeded`; else it
becomes an underscore. A lemma that would then have a definition's name ends in `_lem`. Names of src/, exported names, strings,
inputs and outputs stay. It goes by whole words: in .antt files, in the clauses of .rt files, in must-fail edits, and in what stands
between backticks in README.md and docs/. It also writes `#![tactic(auto)]` into each crate's root file.
"""
import collections
import glob
import os
import re
import sys

WORD = re.compile(r'[^\s(){}.;,@"«»`]+')
DECLARED = re.compile(r"^( *)((?:abbrev|unfoldable|pub|data|record) )*(%s)((?: \{[^}]*\}| \([^)]*\))*) :(?!:)" % WORD.pattern, re.M)
QUIET = re.compile(r'"(?:[^"\\\n]|\\.)*"|(?<![^\s(){}.;,@"«»])--[^\n]*|\{-.*?-\}', re.S)
SPAN = re.compile(r"`[^`\n]+`")
# Words of the library that a name may be joined to by a dash.
LIBRARY = {"length", "take", "drop", "map", "sum", "replicate", "reverse", "append", "ltb", "leb", "eqb", "cond"}
# Where the rule would give two things one name, or a name that a file has already.
CHOSEN = {
    "EL3RecordingEnabled": "el3_recording_enabled",
    "by-reading": "by_reading_lem",
}
KEPT = set()


def read(path):
    with open(path, encoding="utf-8") as f:
        return f.read()


def antt_files(root):
    return sorted(p for p in glob.glob(os.path.join(root, "crates/*/*/**/*.antt"), recursive=True) if "/out/" not in p)


def snake(name):
    name = re.sub(r"(?<=[a-z0-9])([A-Z])", r"_\1", name)
    return re.sub(r"(?<=[A-Z])([A-Z])(?=[a-z])", r"_\1", name).lower()


def declarations(root):
    """The names that are declared: those of definitions, and for each file those of it; and the names of records' fields."""
    defined, by_file, fields = set(), {}, set()
    for path in antt_files(root):
        text = QUIET.sub(lambda m: re.sub(r"[^\n]", " ", m[0]), read(path))
        here, in_record = set(), False
        for line in text.split("\n"):
            if line[:1].strip():
                in_record = bool(re.match(r"(?:pub )?record ", line))
            m = DECLARED.match(line)
            if not m or m[3] in ("use", "mod"):
                continue
            here.add(m[3])
            if in_record and m[1]:
                fields.add(m[3])
            if "/specs/" in path and not m[1]:
                defined.add(m[3])
        by_file[path] = here
    return defined, by_file, fields


def table_of(defined, by_file):
    names = {snake(d) for d in defined if d[:1].islower()} | {d for d in defined if not d[:1].islower()} | LIBRARY
    turned = {}
    for name in sorted(set().union(*by_file.values())):
        if name in CHOSEN:
            turned[name] = CHOSEN[name]
            continue
        if name in KEPT or not re.fullmatch(r"[A-Za-z][\w'-]*", name):
            continue
        if "-" in name:
            parts = [snake(p) if p[:1].islower() else p for p in name.split("-")]
            new = "-".join(parts) if all(p in names for p in parts) else snake(name).replace("-", "_")
        elif name[:1].islower():
            new = snake(name)
        else:
            continue
        turned[name] = new
    taken = collections.defaultdict(set)
    for name in set().union(*by_file.values()):
        taken[turned.get(name, name)].add(name)
    for new, olds in taken.items():
        if len(olds) > 1 and any(o in defined for o in olds):
            for old in olds - defined:
                turned[old] = new + "_lem"
    return {a: b for a, b in turned.items() if a != b}


class Respelling:
    def __init__(self, table, fields):
        self.table, self.fields = table, fields

    def words(self, text, behind=""):
        def one(m):
            word = m[0]
            if word not in self.table:
                return word
            dotted = (behind if m.start() == 0 else text[m.start() - 1]) == "."
            if dotted and "-" in word and word not in self.fields:
                head = re.search(r"([\w'.-]+)\.$", text[: m.start()])
                if not head or not (head[1].startswith("Rattle.") or head[1] in self.modules):
                    return word
            return self.table[word]

        return WORD.sub(one, text)

    def comment(self, text):
        text = SPAN.sub(lambda m: self.words(m[0]), text)
        return re.sub(r"(?<![\w.-])[a-z]+[A-Z]\w*(?![\w-])", lambda m: self.table.get(m[0], m[0]), text)

    def antt(self, text):
        self.modules = set(re.findall(r"^use Rattle\.\w+\.(?:specs|proofs)\.[A-Z]\w* as (\w+)", text, re.M))
        self.modules |= set(re.findall(r"^use Rattle\.\w+\.(?:specs|proofs)\.([A-Z]\w*)$", text, re.M))
        out, at = [], 0
        for m in QUIET.finditer(text):
            out += [self.words(text[at : m.start()]), m[0] if m[0][0] == '"' else self.comment(m[0])]
            at = m.end()
        return "".join(out + [self.words(text[at:])])

    def code(self, text):
        self.modules = set()
        lines = []
        for line in text.split("\n"):
            code, mark, comment = line.partition("//")
            lines.append(re.sub(r'("(?:[^"\\]|\\.)*")|([^"]+|")', lambda m: m[1] or self.words(m[0]), code) + (self.comment(mark + comment) if mark else ""))
        return "\n".join(lines)

    def page(self, text):
        self.modules = set()
        return SPAN.sub(lambda m: WORD.sub(lambda w: self.table.get(w[0], w[0]), m[0]), text)


def with_tactics(text):
    if "#![tactic(auto)]" in text:
        return text
    lines = text.split("\n")
    at = next(i for i, line in enumerate(lines) if not line.startswith("//"))
    return "\n".join(lines[:at] + ["#![tactic(auto)]", ""] + lines[at:])


def write(path, new):
    if new != read(path):
        with open(path, "w", encoding="utf-8") as f:
            f.write(new)


def main(words):
    show = "--table" in words
    root = next((w for w in words if not w.startswith("--")), ".")
    defined, by_file, fields = declarations(root)
    table = table_of(defined, by_file)
    if show:
        for old, new in sorted(table.items()):
            print(old, new, sep="\t")
        for path in antt_files(root):
            text = QUIET.sub(" ", read(path))
            used = set(WORD.findall(text))
            seen = collections.defaultdict(set)
            for w in used:
                seen[table.get(w, w)].add(w)
            for new, olds in seen.items():
                if len(olds) > 1:
                    print("look: %s: %s become %s" % (os.path.relpath(path, root), ", ".join(sorted(olds)), new), file=sys.stderr)
        return
    it = Respelling(table, fields)
    for path in antt_files(root):
        write(path, it.antt(read(path)))
    for path in glob.glob(os.path.join(root, "crates/*/src/*.rt")):
        text = it.code(read(path))
        write(path, with_tactics(text) if os.path.basename(path) in ("lib.rt", "main.rt") else text)
    for path in glob.glob(os.path.join(root, "crates/*/must-fail/*.edit")) + glob.glob(os.path.join(root, ".ci/edits/*.edit")):
        write(path, "\n".join(it.code(line) if re.match("old: |new: ", line) else it.page(line) for line in read(path).split("\n")))
    for path in [os.path.join(root, "README.md")] + glob.glob(os.path.join(root, "docs/**/*.md"), recursive=True):
        write(path, it.page(read(path)))


main(sys.argv[1:])
