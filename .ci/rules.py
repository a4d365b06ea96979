#!/usr/bin/env python3
"""Fails where a page of docs/ does not fit the repository, or a definition has no comment.

1. Every name in backticks on docs/RULES.md and docs/PROMISES.md exists:
     crate.Module.name          a definition of crates/crate/specs/Module.antt
     crate.proofs.Module.name   a law of crates/crate/proofs/Module.antt
     crate::name                a function, type or constant of crates/crate/src/ (or crate::Type::name)
     crate/must-fail/name       an edit crates/crate/must-fail/name.edit
     planted:Name               a planted error of tests/compare/tests/planted*.rs, bank.rs, batches/planted.rs or parting/planted.rs
     test:name                  a test function under tests/ or rust/
     path/to/file               a file of the repository
     name                       a crate, or a word that stands in a definition, a law, the code or the header
   A statement that is quoted, with spaces in it, is looked up word by word.
   On docs/DECISIONS.md and docs/PROVING.md, which name other things too, only names of the first four forms are looked up, and
   crate.proofs.Module, a file of laws.
2. Every public function of the crates is named on PROMISES, and decides its result and its lent memory by equations, or is
   listed there under "Exceptions".
3. Every public definition in specs/ has a comment above it.
"""
import glob
import os
import re
import sys

ROOT = os.path.dirname(os.path.dirname(os.path.abspath(__file__)))
PAGES = ["docs/RULES.md", "docs/PROMISES.md"]
# Pages on which only names that begin with a crate's are looked up.
OTHER_PAGES = ["docs/DECISIONS.md", "docs/PROVING.md"]
PROMISES = "docs/PROMISES.md"


def read(*parts):
    path = os.path.join(ROOT, *parts)
    if not os.path.isfile(path):
        return None
    with open(path, encoding="utf-8") as f:
        return f.read()


def joined(*patterns):
    """The texts of all files that fit one of the patterns."""
    paths = [p for pattern in patterns for p in sorted(glob.glob(os.path.join(ROOT, pattern), recursive=True))]
    return "\n".join(open(p, encoding="utf-8").read() for p in paths if "/target/" not in p)


CRATES = sorted(d for d in os.listdir(os.path.join(ROOT, "crates")))
LOGIC = joined("crates/*/specs/**/*.antt", "crates/*/proofs/**/*.antt", "crates/*/src/*.rt", "include/brb.h")
WORDS = set(re.findall(r"[^\W\d][\w-]*", LOGIC))
TESTS = joined("tests/**/*.rs", "rust/**/*.rs")
PLANTED = joined("tests/compare/tests/planted*.rs", "tests/compare/tests/bank.rs", "tests/compare/tests/*/planted.rs")


def declares(text, name):
    """Whether an antt module declares the name: by a signature, or as a data type, a record or a constructor."""
    n = re.escape(name)
    return text is not None and re.search(
        r"^\s*((unfoldable|abbrev|pub) )*((data|record|ruleset) )?%s( \{[^}]*\})? [:=(]" % n, text, re.M
    )


def in_source(crate, kind, name):
    text = joined("crates/%s/src/*.rt" % crate)
    if kind and not re.search(r"^impl(<[^>]*>)? %s\b" % kind, text, re.M):
        return False
    return re.search(r"\b(fn|const|struct|enum) %s\b" % name, text)


def unknown_words(statement):
    """The words of a quoted statement that stand nowhere in the definitions, laws, code or header."""
    words = re.findall(r"[^\W\d_][\w-]*", re.sub(r"\b0x[0-9A-Fa-f]+\b", " ", statement))
    return [w for w in words if len(w) > 1 and w not in WORDS]


def missing(name):
    """Why the name does not exist, or None."""
    if name.startswith("planted:"):
        return None if re.search(r"\b%s\b" % re.escape(name[8:]), PLANTED) else "no such planted error"
    if name.startswith("test:"):
        return None if re.search(r"\bfn %s\(" % re.escape(name[5:]), TESTS) else "no such test"
    m = re.fullmatch(r"(\w+)/must-fail/(\w+)", name)
    if m:
        return None if read("crates", m[1], "must-fail", m[2] + ".edit") is not None else "no such edit"
    m = re.fullmatch(r"(\w+)::(?:(\w+)::)?(\w+)", name)
    if m:
        return None if in_source(*m.groups()) else "no such function, type or constant"
    m = re.fullmatch(r"(\w+)\.proofs\.(\w+)\.([^\s.]+)", name)
    if m:
        return None if declares(read("crates", m[1], "proofs", m[2] + ".antt"), m[3]) else "no such law"
    m = re.fullmatch(r"(\w+)\.proofs\.(\w+)", name)
    if m:
        return None if read("crates", m[1], "proofs", m[2] + ".antt") is not None else "no such file of laws"
    m = re.fullmatch(r"(\w+)\.(\w+)\.([^\s.]+)", name)
    if m and not os.path.exists(os.path.join(ROOT, name)):
        return None if declares(read("crates", m[1], "specs", m[2] + ".antt"), m[3]) else "no such definition"
    if "/" in name and " " not in name:
        return None if os.path.exists(os.path.join(ROOT, name)) else "no such file"
    if name in CRATES:
        return None
    words = unknown_words(name)
    return "stands nowhere: " + ", ".join(words) if words else None


def of_a_crate(name):
    """Whether the name has a form that begins with a crate's name."""
    m = re.fullmatch(r"(\w+)(\.|::|/must-fail/)\S+", name)
    return m and m[1] in CRATES


def looked_up(bad):
    """Names that do not exist, added to bad; answers how many were looked up."""
    checked = 0
    for page in PAGES + OTHER_PAGES:
        for number, line in enumerate((read(page) or "").splitlines(), 1):
            for name in re.findall(r"`([^`]+)`", line):
                if page in OTHER_PAGES and not of_a_crate(name):
                    continue
                checked += 1
                why = missing(name)
                if why:
                    bad.append("%s:%d: `%s`: %s" % (page, number, name, why))
    return checked


def public_functions():
    """Each public function: crate, type or None, name, its head (parameters, result and clauses)."""
    for crate in CRATES:
        text = joined("crates/%s/src/*.rt" % crate)
        kind = None
        for m in re.finditer(r"^impl(?:<[^>]*>)? (\w+)|^( *)pub (?:extern \"C\" )?fn (\w+)", text, re.M):
            if m[1]:
                kind = m[1]
                continue
            end = re.compile(r"^%s\{|\{$" % m[2], re.M).search(text, m.end())
            yield crate, kind if m[2] else None, m[3], text[m.end():end.start() if end else len(text)]


def promises_of(head):
    """The texts of the clauses that say what holds afterwards, which stand in braces, as braces of their own may."""
    texts = []
    for m in re.finditer(r"^\s*ensures\*?(?: \w+)? \{", head, re.M):
        depth, end = 1, m.end()
        while depth and end < len(head):
            depth += {"{": 1, "}": -1}.get(head[end], 0)
            end += 1
        texts.append(head[m.end():end - 1])
    return texts


def undecided(head):
    """What a function leaves open: its result, or what it is lent and may change."""
    clauses = promises_of(head)
    signature = re.split(r"\n\s*(?:requires|ensures)\b", head)[0]
    left = []
    if "->" in signature and not any("≡" in c and re.search(r"\bresult\b", c) for c in clauses):
        left.append("its result")
    # What is lent is a parameter behind `&mut`, or the function's own value, as `&mut self` or `self: &mut ..`.
    lent = re.findall(r"(\w+): &(?:'\w+ )?mut\b", signature) + re.findall(r"&(?:'\w+ )?mut (self)\b", signature)
    for name in lent:
        if not any("≡" in c and re.search(r"\b%s\.new\b" % name, c) for c in clauses):
            left.append("`%s`" % name)
    return left


def promised(bad):
    """Public functions that are not on PROMISES, or decide too little and are not listed as exceptions there."""
    page = read(PROMISES) or ""
    exceptions = page.split("## Exceptions", 1)[1].split("\n## ", 1)[0] if "## Exceptions" in page else ""
    count = 0
    for crate, kind, name, head in public_functions():
        full = "::".join(p for p in (crate, kind, name) if p)
        count += 1
        if "`%s`" % full not in page:
            bad.append("%s: `%s` is not named" % (PROMISES, full))
        left = undecided(head)
        if left and "`%s`" % full not in exceptions:
            bad.append("%s does not decide %s, and is no listed exception" % (full, " and ".join(left)))
    return count


def commented(bad):
    """Public definitions in specs/ without a comment right above."""
    count = 0
    for path in sorted(glob.glob(os.path.join(ROOT, "crates/*/specs/*.antt"))):
        lines = open(path, encoding="utf-8").read().splitlines()
        for i, line in enumerate(lines):
            m = re.match(r"(?:unfoldable |abbrev )*pub (?:data |record )?(\S+) .*[:(]", line)
            if not m or line.startswith("pub mod"):
                continue
            count += 1
            if i == 0 or not lines[i - 1].startswith("--"):
                bad.append("%s:%d: %s has no comment" % (os.path.relpath(path, ROOT), i + 1, m[1]))
    return count


def main():
    bad = []
    names, functions, definitions = looked_up(bad), promised(bad), commented(bad)
    for line in bad:
        print(line, file=sys.stderr)
    print("rules: %d names looked up, %d public functions, %d definitions, %d wrong" % (names, functions, definitions, len(bad)))
    sys.exit(1 if bad else 0)


main()
