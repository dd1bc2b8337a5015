#!/usr/bin/env python3
"""Writes the seven workloads: charge profiles of battery packs, and the patches
that their makers send; and the documents of `real`, which stand in the folder
real beside this file.  Usage: workloads.py FOLDER

For each workload NAME three files are written: NAME.doc.json, NAME.patch.json
and NAME.want.json, the expected result, worked out here by a small plain
interpreter and by none of the measured programs.  For the pair NAME of `real` they
are real-NAME.doc.json and so on, the two texts with their blanks as they are.  The
files are the same every time.  The limits hold for document, patch, every document
in between and the result: 32,768 bytes, 2,048 values, depth 32, 256 operations.
"""
import copy
import json
import os
import random
import sys

BYTES, NODES, DEPTH, OPS = 32768, 2048, 32, 256


class Num(float):
    """A number that remembers its spelling, so documents can hold 3.0 or 1e-3."""
    def __new__(cls, text):
        self = super().__new__(cls, text)
        self.text = text
        return self

    def __repr__(self):
        return self.text

    def __deepcopy__(self, memo):
        return self


def n(text):
    return Num(text)


def pretty(v, indent, level=0):
    """JSON with line ends and indentation, as programs write files for people."""
    if not isinstance(v, (list, dict)) or not v:
        return dump(v)
    line = "\n" + indent * (level + 1)
    items = [json.dumps(k, ensure_ascii=False) + ": " + pretty(x, indent, level + 1) for k, x in v.items()] \
        if isinstance(v, dict) else [pretty(x, indent, level + 1) for x in v]
    left, right = "{}" if isinstance(v, dict) else "[]"
    return left + line + ("," + line).join(items) + "\n" + indent * level + right


def dump(v, raw=True):
    """Compact JSON.  Num keeps its spelling; strings in Esc keep their escapes."""
    if isinstance(v, Esc):
        return v.text
    if isinstance(v, str):
        return json.dumps(v, ensure_ascii=not raw)
    if v is True:
        return "true"
    if v is False:
        return "false"
    if v is None:
        return "null"
    if isinstance(v, Num):
        return v.text
    if isinstance(v, (int, float)):
        return json.dumps(v)
    if isinstance(v, list):
        return "[" + ",".join(dump(x, raw) for x in v) + "]"
    return "{" + ",".join(json.dumps(k, ensure_ascii=False) + ":" + dump(x, raw) for k, x in v.items()) + "}"


class Esc(str):
    """A string with a chosen spelling (escapes kept as written)."""
    def __new__(cls, text):
        self = super().__new__(cls, json.loads(text))
        self.text = text
        return self

    def __deepcopy__(self, memo):
        return self


def nodes(v):
    if isinstance(v, list):
        return 1 + sum(map(nodes, v))
    if isinstance(v, dict):
        return 1 + sum(map(nodes, v.values()))
    return 1


def depth(v):
    if isinstance(v, list):
        return 1 + max(map(depth, v), default=0)
    if isinstance(v, dict):
        return 1 + max(map(depth, v.values()), default=0)
    return 0


# ---- the expected result: RFC 6902, plainly --------------------------------

def tokens(p):
    assert p == "" or p[0] == "/", p
    return [t.replace("~1", "/").replace("~0", "~") for t in p.split("/")[1:]]


def step(v, t):
    return v[t] if isinstance(v, dict) else v[int(t)]


def find(doc, p):
    for t in tokens(p):
        doc = step(doc, t)
    return doc


def parent(doc, p):
    ts = tokens(p)
    for t in ts[:-1]:
        doc = step(doc, t)
    return doc, ts[-1]


def do_add(doc, p, v):
    if p == "":
        return v
    d, t = parent(doc, p)
    if isinstance(d, dict):
        d[t] = v
    else:
        i = len(d) if t == "-" else int(t)
        assert 0 <= i <= len(d)
        d.insert(i, v)
    return doc


def do_remove(doc, p):
    d, t = parent(doc, p)
    del d[t if isinstance(d, dict) else int(t)]
    return doc


def apply(doc, patch, checked=True):
    doc = copy.deepcopy(doc)
    for o in patch:
        k, p = o["op"], o["path"]
        if k == "add":
            doc = do_add(doc, p, copy.deepcopy(o["value"]))
        elif k == "remove":
            doc = do_remove(doc, p)
        elif k == "replace":
            if p == "":
                doc = copy.deepcopy(o["value"])
            else:
                d, t = parent(doc, p)
                t = t if isinstance(d, dict) else int(t)
                d[t]                                    # must exist
                d[t] = copy.deepcopy(o["value"])
        elif k == "move":
            v = find(doc, o["from"])
            doc = do_add(do_remove(doc, o["from"]), p, v)
        elif k == "copy":
            doc = do_add(doc, p, copy.deepcopy(find(doc, o["from"])))
        elif k == "test":
            assert find(doc, p) == o["value"], o
        else:
            raise AssertionError(k)
        if checked:
            check("intermediate", doc)
    return doc


def check(what, v):
    assert nodes(v) <= NODES, (what, "nodes", nodes(v))
    assert depth(v) <= DEPTH, (what, "depth")
    b = len(dump(v).encode())
    assert b <= BYTES, (what, "bytes", b)


# ---- operations -------------------------------------------------------------

def add(p, v): return {"op": "add", "path": p, "value": v}
def rem(p): return {"op": "remove", "path": p}
def rep(p, v): return {"op": "replace", "path": p, "value": v}
def mov(f, p): return {"op": "move", "from": f, "path": p}
def cop(f, p): return {"op": "copy", "from": f, "path": p}
def tst(p, v): return {"op": "test", "path": p, "value": v}


# ---- workloads --------------------------------------------------------------

def tiny():
    return ({"mAh": 3000, "cut": [n("4.2"), n("3.0")]},
            [tst("/mAh", 3000), rep("/cut/1", n("2.9"))])


def stage(r, i):
    return {"name": ["trickle", "bulk", "absorb", "balance", "float"][i % 5],
            "mode": "CC" if i % 2 == 0 else "CV",
            "limit": {"mA": r.randrange(100, 4000, 10), "mV": r.randrange(2800, 4350, 5)},
            "until": {"mV": r.randrange(3000, 4350, 5), "mA": r.randrange(20, 400, 5), "minutes": r.randrange(10, 240)},
            "taper": [n("%.3f" % r.uniform(0.02, 1.0)) for _ in range(4)]}


def typical():
    r = random.Random(6902)
    doc = {
        "schema": "charge-profile/3", "id": "NCR18650-3S3P-rev7", "maker": "Example Cells",
        "chemistry": "NMC", "mAh": 3000, "cut": [n("4.2"), n("3.0")],
        "pack": {"series": 3, "parallel": 3, "cells": [
            {"serial": "A%07d" % r.randrange(10**7), "mAh": r.randrange(2900, 3050),
             "mOhm": n("%.2f" % r.uniform(18, 32)), "cycles": r.randrange(0, 300), "ok": True} for _ in range(9)]},
        "stages": [stage(r, i) for i in range(5)],
        "derate": [{"degC": c, "factor": n("%.2f" % r.uniform(0.1, 1.0))} for c in range(-10, 65, 5)],
        "safety": {"ovp": 4280, "uvp": 2750, "ocp": 8000, "otp": 60, "utp": 0, "watchdog_s": 30,
                   "fault": None, "latched": False, "notes": "open FET on any cell above ovp; clear on service only"},
        "history": [{"at": "2024-0%d-1%dT08:30:00Z" % (i % 9 + 1, i % 10), "ev": ["full", "stop", "warm", "swap"][i % 4],
                     "mV": r.randrange(3000, 4200), "mAh": n("%.1f" % r.uniform(0, 3000))} for i in range(28)],
        "labels": {"line/station": "7/B", "rev~": "c", "lot": "24W18"},
    }
    patch = [
        tst("/schema", "charge-profile/3"), tst("/pack/series", 3),
        rep("/cut/0", n("4.15")), rep("/safety/ovp", 4230),
        add("/stages/3", {"name": "soak", "mode": "CV", "limit": {"mA": 300, "mV": 4150},
                          "until": {"mV": 4150, "mA": 60, "minutes": 45}, "taper": [n("0.500"), n("0.250")]}),
        rem("/history/0"), mov("/labels/lot", "/pack/lot"), cop("/stages/1/limit", "/stages/2/limit"),
        tst("/labels/line~1station", "7/B"), add("/labels/rev~0", "d"), add("/derate/-", {"degC": 65, "factor": 0}),
        tst("/stages/3/until", {"minutes": 45, "mA": 60, "mV": 4150}),
    ]
    return doc, patch


def large():
    r = random.Random(3002)
    doc = {"schema": "charge-profile/3", "site": "plant-4", "packs": []}
    for k in range(42):
        doc["packs"].append({
            "serial": "PK-%02d-%06d" % (k, r.randrange(10**6)), "chemistry": "LFP", "mAh": r.randrange(95000, 105000),
            "window": {"max_mV": r.randrange(3600, 3650), "min_mV": r.randrange(2500, 2800), "hysteresis_mV": 25},
            "cells": [{"mV": r.randrange(3200, 3400), "degC": n("%.1f" % r.uniform(18, 36)), "balance": r.random() < .3} for _ in range(7)],
            "stages": [{"kind": "constant-current", "mA": r.randrange(1000, 50000, 50), "to_mV": r.randrange(3400, 3650)}],
            "comment": "commissioned by field crew, see binder %d" % r.randrange(100)})
    doc["log"] = log = []
    while nodes(doc) < 1896:
        log.append({"t": r.randrange(10**9), "ev": ["full", "stop", "warm"][r.randrange(3)], "v": [r.randrange(4000), r.randrange(4000)]})
    doc["note"] = ""
    doc["note"] = ("Charge windows follow the maker's sheet; " * 400)[: 32000 - len(dump(doc).encode())]
    patch = []
    for i in range(5, 41, 6):
        b = "/packs/%d" % i
        patch += [tst(b + "/chemistry", "LFP"),
                  rep(b + "/window/max_mV", 3580),
                  rep(b + "/cells/5/balance", True),
                  add(b + "/cells/0", {"mV": 3300, "degC": n("21.5"), "balance": False}),
                  rem(b + "/cells/6"),
                  cop(b + "/stages/0", "/packs/%d/stages/0" % (i + 1))]
    patch += [rem("/packs/36/stages/1"), mov("/packs/40/comment", "/packs/0/comment"),
              tst("/packs/35/window", {"hysteresis_mV": 25, "min_mV": find(doc, "/packs/35/window/min_mV"), "max_mV": 3580}),
              rep("/site", "plant-5")]
    return doc, patch


def flat():
    r = random.Random(77)
    doc = {"cell_%04d_mV" % i: r.randrange(2800, 4200) for i in range(1000)}
    patch = []
    for i in range(900, 1000):
        p = "/cell_%04d_mV" % i
        k = i % 5
        patch.append([tst(p, doc["cell_%04d_mV" % i]), rep(p, r.randrange(2800, 4200)), rem(p),
                      add("/cell_%04d_degC" % i, n("%.1f" % r.uniform(10, 40))),
                      cop(p, "/cell_%04d_peak" % i)][k])
    return doc, patch


def many():
    r = random.Random(250)
    doc = {"id": "formation-line-2", "trays": [
        {"tray": "T%03d" % t, "slots": [{"slot": s, "mAh": r.randrange(2800, 3100), "mOhm": n("%.2f" % r.uniform(18, 30)),
                                       "grade": "ABC"[r.randrange(3)]} for s in range(8)],
         "recipe": {"mA": 1500, "mV": 4200, "rest_min": 10}} for t in range(35)], "tags": {}}
    patch = []
    for i in range(41):
        t = i % 35
        b = "/trays/%d" % t
        patch += [tst(b + "/tray", "T%03d" % t),
                  rep(b + "/recipe/mA", 1200 + i),
                  add(b + "/slots/0", {"slot": 90 + i, "mAh": 3000}),
                  mov(b + "/slots/3", b + "/slots/1"),
                  cop(b + "/recipe/mV", "/tags/v%d" % i),
                  rem(b + "/slots/8")]
    patch += [tst("/tags/v40", 4200), rep("/id", "formation-line-3"), rem("/tags/v0"), add("/tags/last", None)]
    return doc, patch


def strings():
    r = random.Random(30)
    words = ["cell", "overvoltage", "taper", "kühl", "Ladezustand", "充电", "停止", "soak", "relay", "fuse", "°C", "μΩ"]
    esc = ['\\n', '\\t', '\\"', '\\\\', '\\/', '\\u00e9', '\\u2126', '\\ud83d\\udd0b', '\\r', '\\u0007', '\\b', '\\f']

    def text(size, every):
        out, size0 = [], 0
        while size0 < size:
            w = words[r.randrange(len(words))]
            if r.random() < every:
                w += esc[r.randrange(len(esc))]
            w += " "
            out.append(w)
            size0 += len(w.encode())
        return Esc('"' + "".join(out).rstrip(" ") + '"')

    doc = {"title": "service manual", "sections": []}
    for i in range(18):
        doc["sections"].append({"id": "s%02d" % i, "head": text(60, .1), "body": text(1400, .25), "warn": text(120, .05)})
    patch = [tst("/sections/17/id", "s17"), tst("/sections/4/body", doc["sections"][4]["body"]),
             rep("/sections/2/body", text(1200, .25)), add("/sections/5/extra", text(400, .3)),
             rem("/sections/9/warn"), mov("/sections/1/head", "/sections/0/old"),
             cop("/sections/3/warn", "/sections/3/head"), add("/sections/-", {"id": "s18", "body": text(300, .2)}),
             rep("/title", Esc('"Service \\u0022manual\\u0022 \\ud83d\\udd0b"')), rem("/sections/7")]
    return doc, patch


def numbers():
    r = random.Random(2000)

    def num(i):
        k = i % 8
        if k in (0, 1, 2):
            return r.randrange(-5000, 60000)
        if k in (3, 4):
            return n("%.3f" % r.uniform(-5, 5))
        if k == 5:
            return n("%.2fe-%d" % (r.uniform(1, 9), r.randrange(1, 9)))
        if k == 6:
            return r.randrange(10**11, 10**12)
        return n("%.12f" % r.uniform(2, 5))

    doc = {"unit": "mV", "curve": [[num(i * 80 + j) for j in range(80)] for i in range(25)]}
    patch = [tst("/curve/0/0", doc["curve"][0][0]), rep("/curve/24/79", n("3.141592653589")), add("/curve/12/40", n("4.2e-3")),
             rem("/curve/12/0"), mov("/curve/3/79", "/curve/3/0"), cop("/curve/7/7", "/curve/8/8"), rem("/curve/8/9"),
             tst("/curve/20", list(doc["curve"][20])), rep("/unit", "uV"), add("/curve/24/-", -1)]
    return doc, patch


# ---- real: documents of the kinds that people patch, and variants of them ------

REAL = os.path.join(os.path.dirname(os.path.abspath(__file__)), "real")
VARIANTS = 11


def read(name):
    with open(name, encoding="utf-8", newline="") as file:
        return file.read()


def real():
    """Each pair's name, its document and its patch, as texts."""
    for file in sorted(os.listdir(REAL)):
        name, kind, _ = file.split(".")
        if kind == "doc":
            yield name, *(read(os.path.join(REAL, "%s.%s.json" % (name, kind))) for kind in ("doc", "patch"))


def scalars(v):
    if isinstance(v, (list, dict)):
        for x in v.values() if isinstance(v, dict) else v:
            yield from scalars(x)
    else:
        yield v


def varied(r, v, kept):
    """The same shape: members in another order, strings and numbers of other lengths.
    A scalar that the patch tests stays as it is."""
    if isinstance(v, dict):
        members = list(v.items())
        r.shuffle(members)
        return {k: varied(r, x, kept) for k, x in members}
    if isinstance(v, list):
        return [varied(r, x, kept) for x in v]
    if v is None or v == "" or v in kept:
        return v
    if isinstance(v, bool):
        return r.random() < .5
    if isinstance(v, str):
        start = r.randrange(len(v))
        return (v + " " + v + " " + v)[start:start + r.randrange(len(v) // 2, len(v) * 3 // 2 + 1)]
    if isinstance(v, int):
        return r.randrange(10 ** (len(str(v)) - 1), 10 ** r.randrange(len(str(v)), len(str(v)) + 2))
    return n("%.*f" % (r.randrange(1, 7), float(v) * r.uniform(.5, 1.5)))


def variants(name, document, patch):
    """The document, and others of its shape with the same indentation."""
    yield document
    r = random.Random(name)
    doc = json.loads(document, parse_float=n)
    kept = [x for o in json.loads(patch) if o["op"] == "test" for x in scalars(o["value"])]
    indent = document[2:len(document) - len(document[2:].lstrip())] if "\n" in document else None
    for _ in range(VARIANTS):
        v = varied(r, doc, kept)
        yield dump(v) if indent is None else pretty(v, indent) + "\n"


WORK = [tiny, typical, large, flat, many, strings, numbers]


def texts():
    """Each workload's name, its document and its patch, as texts and as values. Of
    `real` first the pairs, then each pair with all variants of its document."""
    def valued(name, *texts):
        return name, *texts, *(json.loads(text, parse_float=n) for text in texts)

    for w in WORK:
        doc, patch = w()
        yield w.__name__, dump(doc), dump(patch), doc, patch
    for name, document, patch in real():
        yield valued("real-" + name, document, patch)
        for k, variant in enumerate(variants(name, document, patch)):
            yield valued("turn-%02d-%s" % (k, name), variant, patch)


def main(out):
    os.makedirs(out, exist_ok=True)
    print("%-15s %9s %6s %6s %10s %6s %9s" % ("name", "doc bytes", "values", "depth", "patch bytes", "ops", "result"))
    for name, d, p, doc, patch in texts():
        in_turn = name.startswith("turn-")
        check("doc", doc)
        check("patch", patch)
        assert len(patch) <= OPS and len(d.encode()) <= BYTES and len(p.encode()) <= BYTES
        want = apply(doc, patch, not in_turn)
        x = dump(want)
        assert json.loads(d) == doc and json.loads(p) == patch and json.loads(x) == want
        for ext, t in (("doc", d), ("patch", p), ("want", x)):
            with open(os.path.join(out, "%s.%s.json" % (name, ext)), "w", encoding="utf-8", newline="") as f:
                f.write(t)
        if not in_turn:
            print("%-15s %9d %6d %6d %10d %6d %9d" % (name, len(d.encode()), nodes(doc), depth(doc), len(p.encode()),
                                                      len(patch), len(x.encode())))


if __name__ == "__main__":
    main(sys.argv[1] if len(sys.argv) > 1 else "work")
