#!/usr/bin/env python3
"""Spells the repository's own definitions and lemmas in snake case, as the toolchain's library does.

    tools/respell.py          turns the files
    tools/respell.py --look   turns nothing; lists each name with its new spelling, and names that fall together

Ran once, right after the toolchain's own port.py. A name that specs/ or proofs/ declares and that begins with a small
letter is spelled anew: a capital becomes `_` and a small letter; a dash becomes `_`, but for a dash between the names
of two definitions of specs/ or beside a type. The proof of a function f is `f_spec`. What src/ declares keeps its name.
A lemma that would meet its definition ends in `_lem`. Terms of the standards stay, as JSON-text, DIGIT1-9 and 80-BF.
A name stays in a file that imports it from another library. Quoted text stays. In comments and pages, names turn where
they stand between backticks; a name with a capital inside turns anywhere in a comment.
"""
import os
import re
import sys

ROOT = os.path.dirname(os.path.dirname(os.path.abspath(__file__)))
WORD = re.compile(r'[^\s(){}.;,@"«»]+')
DECLARED = re.compile(r"^ *(?:(?:pub|abbrev|unfoldable|pattern|ruleset) +)*(?!--)([^\s(){}.;,@\"«»]+)(?: \{[^{}]*\})*(?: \([^()]*\))* :(?= |$)")
RULESET = re.compile(r"^ *(?:pub )?ruleset (?:pub )?([^\s(){}.;,@\"«»=:]+)")
SPAN = re.compile(r"`([^`\n]+)`")
QUIET = re.compile(r'"(?:[^"\\\n]|\\.)*"|--[^\n]*', re.S)
RUST = re.compile(r"""//[^\n]*|b?"(?:[^"\\]|\\.)*"|b?'(?:\\.|[^'\\\n])'""", re.S)
CAMEL = re.compile(r"(?<=[a-z0-9ℕ₀-₉'])[A-Z]")
RESERVED = "data record deriving module where use mod pub package open as unfoldable abbrev axiom unfold unfolding ruleset mutual infix infixl infixr elim let in do Type coe fcoe tcoe hcom com".split()
TERM = re.compile(r"[0-9A-F]{2,}-[0-9A-F]{2,}|\w*\d-\d+|[A-Z][A-Z0-9]+(-[a-z0-9]+)+")
HEX = re.compile(r"[0-9A-F]+")
# Variables that would hide a definition.
VARIABLES = {
    "crates/changes/proofs/ChangeLaws.antt": {"index_of": "is_index_of"},
    "crates/decimal/proofs/NormalLaws.antt": {"is_negative": "negative_is"},
    "crates/walk/proofs/PathLaws.antt": {"is_pointer": "well_pointer"},
}


def files():
    for folder, dirs, names in os.walk(os.path.join(ROOT, "crates")):
        dirs[:] = sorted(d for d in dirs if d != "out")
        for n in sorted(names):
            if n.endswith((".rt", ".antt", ".edit")):
                yield os.path.join(folder, n)


def pages():
    out = [os.path.join(ROOT, n) for n in ("README.md", "CONTRIBUTING.md", "CHANGELOG.md")]
    for folder, _, names in os.walk(os.path.join(ROOT, "docs")):
        out += [os.path.join(folder, n) for n in sorted(names) if n.endswith(".md") and not n.startswith("PORT")]
    return out


def read(path):
    with open(path, encoding="utf-8") as f:
        return f.read()


def imports(text):
    """Names that a file imports: own, by another library's module."""
    own, other = set(), set()
    for m in re.finditer(r"^\s*(?:pub |ghost )*use ([^\s{;]+?)\.?(?:\{([^}]*)\})?(?: as (\S+?))?;?\s*$", text, re.M):
        path, names = m[1], m[2]
        head = path.split(".")
        mine = head[0] == "Rattle" and len(head) > 1 and head[1] in CRATES
        for it in (names or "").split(","):
            it = it.strip().split(" as ")
            if it and it[0]:
                (own if mine else other).add(it[-1].strip())
    return own, other


CRATES = sorted(os.listdir(os.path.join(ROOT, "crates")))
texts = {p: read(p) for p in files()}

rust_names, specs_names, types = set(), set(), set()
declared = {}
for p, t in texts.items():
    if p.endswith(".rt"):
        code = re.sub(r"//[^\n]*", "", t)
        rust_names |= set(re.findall(r"\b(?:fn|const|struct|enum|type|trait|mod|static) (\w+)", code))
        rust_names |= set(re.findall(r"\b([a-z_0-9]+)\s*:(?!:)", code))
    if p.endswith(".antt"):
        bare = re.sub(r"--[^\n]*", "", t)
        for line in bare.split("\n"):
            m = DECLARED.match(line) or RULESET.match(line)
            m and m[1] not in RESERVED and " tie." not in line and declared.setdefault(m[1], set()).add(p)
        for m in re.finditer(r"^ *(?:pub )?(?:data|record) (?:pub )?([^\s(){}.;,@\"«»:]+)", bare, re.M):
            types.add(m[1])
        if "/specs/" in p:
            for m in re.finditer(r"^ *(?:unfoldable |abbrev )+(?:pub )?([^\s(){}.;,@\"«»:]+)", bare, re.M):
                (types if m[1][:1].isupper() else specs_names).add(m[1])
# names of the library that lemmas are named after
LIBRARY = set("length append map drop take get_or set replicate reverse sum filter min max".split())


def snake(part):
    if HEX.fullmatch(part) or part[:1].isupper() and (part in types or CAMEL.search(part)):
        return part
    return CAMEL.sub(lambda m: "_" + m[0].lower(), part)


DEFINED = {"_".join(snake(q) for q in n.split("-")) for n in specs_names} | LIBRARY


def names_in(parts):
    """The parts, with those joined that spell a definition together."""
    out, i = [], 0
    while i < len(parts):
        for j in range(len(parts), i, -1):
            joined = "_".join(snake(q) for q in parts[i:j])
            if joined in DEFINED or j == i + 1:
                out.append(joined)
                i = j
                break
    return out


def respelled(name):
    if TERM.fullmatch(name):
        return name
    parts = name.split("-")
    if "" in parts:
        return name
    if parts[-1] == "spec":
        return "_".join(snake(q) for q in parts)
    parts = names_in(parts)
    out = parts[0]
    for left, right in zip(parts, parts[1:]):
        named = left in DEFINED and right in DEFINED
        typed = left in types or right in types
        out += ("-" if named or typed else "_") + right
    return out.replace("′", "'")


table = {}
for n in declared:
    if n[:1].isupper() and "-" not in n or n in rust_names or n in RESERVED:
        continue
    new = respelled(n)
    if new != n and not (n[:1].isupper() and new == n):
        table[n] = new


# A definition and a lemma that are spelled alike now: the one with the dash is the lemma.
taken = set(table.values()) | {n for n in declared if n not in table}
for new in {n for n in table.values()}:
    olds = [o for o in table if table[o] == new]
    if len(olds) > 1:
        for o in olds:
            if "-" in o and not CAMEL.search(o):
                table[o] = new + "_lem"
                assert new + "_lem" not in taken, new
for o, new in list(table.items()):
    if "-" in o and new in specs_names and new not in table:
        table[o] = new + "_lem"
# A lemma that is spelled already as a definition is now: by file, where it is declared or imported from there.
met = {new: declared[new] for new in set(table.values()) if new in declared and new not in table}


def lemmas_met(path, text, mine):
    out = {}
    for new, places in met.items():
        if new not in mine.values() and not any(table[o] == new and o in WORD.findall(text) for o in table):
            near = any(table[o] == new and o in WORD.findall(texts[q]) for q in places for o in table)
            if not near:
                continue
        places = {q for q in places if "/proofs/" in q and any(table[o] == new and o in WORD.findall(texts[q]) for o in table)}
        modules = {q.split("/crates/")[1][:-5].replace("/", ".") for q in places}
        imported = any(
            re.search(r"use Rattle\." + re.escape(m) + r"\.\{[^}]*(?<![\w-])" + re.escape(new) + r"(?![\w-])", text) for m in modules
        )
        if path in places or imported:
            out[new] = new + "_lem"
    return out


def turn_words(text, table, met=None):
    def one(m):
        if met and m[0] in met and text[m.start() - 1 : m.start()] != ".":
            return met[m[0]]
        return table.get(m[0], m[0])

    return WORD.sub(one, text)


def turn_spans(text, table):
    text = SPAN.sub(lambda m: "`" + turn_words(m[1], table) + "`", text)
    return re.sub(r"(?<![\w.\-/])[a-z][a-z0-9]*[A-Z]\w*(?![\w\-/])", lambda m: table.get(m[0], m[0]), text)


def turn(path, text, table, met):
    if path.endswith(".antt"):
        quiet, comment = QUIET, "--"
    elif path.endswith(".rt"):
        quiet, comment = RUST, "//"
    else:
        quiet, comment = re.compile(r'^#[^\n]*|"(?:[^"\\\n]|\\.)*"', re.M), "#"
    out, at = [], 0
    for m in quiet.finditer(text):
        out.append(turn_words(text[at : m.start()], table, met))
        out.append(turn_spans(m[0], table) if m[0].startswith(comment) else m[0])
        at = m.end()
    out.append(turn_words(text[at:], table, met))
    return "".join(out)


def main():
    look = "--look" in sys.argv
    clashes = []
    back = {}
    for old, new in table.items():
        back.setdefault(new, []).append(old)
    for new, olds in back.items():
        if len(olds) > 1:
            clashes.append(f"fall together: {' '.join(olds)} -> {new}")
    for p, t in texts.items():
        own, other = imports(t)
        words = set(WORD.findall(t))
        mine = {o: n for o, n in table.items() if o in words and o not in other}
        lemmas = lemmas_met(p, t, mine) | VARIABLES.get(os.path.relpath(p, ROOT), {})
        for o, n in lemmas.items():
            clashes.append(f"{os.path.relpath(p, ROOT)}: {o} -> {n} a lemma")
        for o, n in mine.items():
            if n in words and n not in lemmas:
                clashes.append(f"{os.path.relpath(p, ROOT)}: {o} -> {n} stands there")
        if not look:
            new = turn(p, t, mine, lemmas)
            if new != t:
                with open(p, "w", encoding="utf-8") as f:
                    f.write(new)
    for p in pages():
        t = read(p)
        new = turn_spans(t, table)
        if new != t and not look:
            with open(p, "w", encoding="utf-8") as f:
                f.write(new)
    if look:
        for o, n in sorted(table.items()):
            print(f"{o}\t{n}")
    print("\n".join(clashes), file=sys.stderr)
    print(f"{len(table)} names", file=sys.stderr)


main()
