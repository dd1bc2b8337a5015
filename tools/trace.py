#!/usr/bin/env python3
"""Checks docs/TRACE.md: every name and every file in its right-hand columns exists. Checks crates/ and docs/: every
section of docs/SPECIFICATION.md that is cited exists.

    tools/trace.py            docs/TRACE.md, and the sections
    tools/trace.py FILE..     other pages of tables, and the sections

A name is `name`, `File.name`, `Record.field`, `crate: File.name`, `proofs/File.name` or `crate::module::function`. It
must be declared in a definition, a proof or the code; or be a crate, a must-fail edit or a committed case. `File.name`
must be declared in a file of that name, or name a field of that record. A file is a path that begins with `crates/`,
`docs/` or `second/`.

A section is cited as `SPECIFICATION 6` or `SPECIFICATION 6.2`, or several with `,`, `and` or `to` between them. It must
be the number of a heading of docs/SPECIFICATION.md. Without a number the word in capitals is no citation but a mistake,
unless it is the page's name.

The last lines are the numbers of names and of sections; the status is 0 where all of them exist.
"""
import glob
import os
import re
import sys

ROOT = os.path.dirname(os.path.dirname(os.path.abspath(__file__)))
WORD = r"[A-Za-z_][\w'-]*"
# A declaration begins its line, or stands in a record, a data type or an impl: `name : ..`, `fn name(`, `record Name`.
DECLARED = [
    re.compile(rf"^\s*(?:pub )?(?:abbrev |unfoldable )?(?:pub )?((?:{WORD} )*{WORD}) :", re.M),
    re.compile(rf"^\s*(?:pub )?(?:record|data) ({WORD})", re.M),
    re.compile(rf"^\s*(?:pub )?(?:extern \"C\" )?(?:fn|struct|enum|type|const|mod) ({WORD})", re.M),
    re.compile(rf"^\s*({WORD})(?:\(.*\))?,\s*$", re.M),
]
KEYWORDS = {"requires", "ensures", "match"}
NAME = re.compile(rf"(?:({WORD}): )?((?:proofs/)?{WORD}(?:(?:\.|::){WORD})*)(?: .*)?")
PATH = re.compile(r"\b(?:crates|docs|second)/[\w/.-]*[\w/]")
SECTION = r"\d+(?:\.\d+)?"
CITED = re.compile(rf"\bSPECIFICATION\b(?!\.md)(?: ({SECTION}(?:(?:, | and | to ){SECTION})*))?")


def read(path):
    with open(path, encoding="utf-8", errors="replace") as file:
        return file.read()


def declarations():
    """For each file's stem, for each crate and for each record: the names declared there. '' has all of them."""
    known = {"": set()}
    for path in glob.glob(f"{ROOT}/crates/*/**/*", recursive=True):
        if not path.endswith((".antt", ".rt")) or "/must-fail/" in path or "/out/" in path:
            continue
        text = read(path)
        names = {n for pattern in DECLARED for group in pattern.findall(text) for n in group.split()}
        crate = path[len(ROOT) + len("/crates/"):].split("/")[0]
        stem = os.path.splitext(os.path.basename(path))[0]
        for key in ("", stem, crate):
            known.setdefault(key, set()).update(names)
        known[""].add(stem)
        for record, body in re.findall(rf"^pub (?:record|data) ({WORD})[^\n]*\n((?:(?:[ ][^\n]*)?\n)*)", text, re.M):
            known.setdefault(record, set()).update(re.findall(rf"^\s+(?:pub )?({WORD}) :", body, re.M))
    return known


def others():
    """Crates, must-fail edits and committed cases."""
    names = {os.path.basename(p) for p in glob.glob(f"{ROOT}/crates/*")}
    names |= {os.path.splitext(os.path.basename(p))[0] for p in glob.glob(f"{ROOT}/crates/*/must-fail/*.edit")}
    names |= set(re.findall(r"[a-z][a-z0-9-]*-[a-z0-9-]+", read(f"{ROOT}/crates/vectors/data/cases")))
    return names


def exists(span, known, other):
    """Whether what stands between two backquotes exists; spans that are no names are passed."""
    m = NAME.fullmatch(span)
    if not m or span in KEYWORDS:
        return None
    crate, name = m.groups()
    parts = re.split(r"\.|::", name.removeprefix("proofs/"))
    if len(parts) == 1:
        return parts[0] in known.get(crate or "", set()) or parts[0] in known[""] or parts[0] in other
    return parts[-1] in known.get(parts[0] if "::" in name else parts[-2], set())


def sections():
    """Each section that crates/ and docs/ cite, with its place: how many, and how many of them are no heading."""
    headings = set(re.findall(rf"^##+ ({SECTION})[. ]", read(f"{ROOT}/docs/SPECIFICATION.md"), re.M))
    checked = missing = 0
    paths = [p for folder in ("crates", "docs") for p in glob.glob(f"{ROOT}/{folder}/**/*", recursive=True)]
    for path in sorted(paths):
        if not path.endswith((".antt", ".rt", ".edit", ".md")) or "/out/" in path:
            continue
        for number, line in enumerate(read(path).split("\n"), 1):
            for cited in CITED.findall(line):
                for section in re.findall(SECTION, cited) or ["section after SPECIFICATION"]:
                    checked += 1
                    if section not in headings:
                        missing += 1
                        print(f"{os.path.relpath(path, ROOT)}:{number}: no {section}")
    return checked, missing


def main():
    pages = sys.argv[1:] or [f"{ROOT}/docs/TRACE.md"]
    known, other = declarations(), others()
    checked = missing = 0
    for page in pages:
        for number, line in enumerate(read(page).split("\n"), 1):
            cells = line.split(" | ")
            if not line.startswith("| ") or len(cells) < 2 or line.startswith("|---"):
                continue
            right = cells[-1]
            found = [(s, exists(s, known, other)) for s in re.findall(r"`([^`]+)`", right)]
            found += [(p, os.path.exists(f"{ROOT}/{p}")) for p in PATH.findall(re.sub(r"`[^`]*`", "", right))]
            for span, there in found:
                checked += there is not None
                if there is False:
                    missing += 1
                    print(f"{os.path.relpath(page, ROOT)}:{number}: no {span}")
    print(f"{checked} names, {missing} missing")
    cited, unknown = sections()
    print(f"{cited} sections, {unknown} missing")
    sys.exit(1 if missing or unknown or not checked or not cited else 0)


main()
