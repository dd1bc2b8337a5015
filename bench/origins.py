#!/usr/bin/env python3
"""What a list of origins costs: each call with a list of 2,048 entries against the same
call without, on the seven workloads of workloads.py.

    for name in json_patch region_call merge undo listing region_listing merge_listing undo_listing; do
        tools/staticlib.sh $name; done
    python3 bench/origins.py [CALL..]        JSON_PATCH_LIB=DIR for archives elsewhere

Instructions a call, in thousands, by callgrind; nanoseconds of processor time, the least
of 80 rounds, the two calls in turn. `apply` and `undo` take the workloads' patches;
`within` those of their operations that a maker may send, with a test in front, as far as
they succeed; `merge` the merge patch that makes the workload's result of its document.
"""
import copy
import json
import os
import subprocess
import sys
import tempfile
from pathlib import Path

import workloads

ROOT = Path(__file__).resolve().parents[1]
LIBRARY = Path(os.environ.get("JSON_PATCH_LIB", ROOT / "target" / "staticlib"))
OUT = ROOT / "target" / "bench" / "origins"
ARCHIVES = ["json_patch", "region_call", "merge", "undo", "listing", "region_listing", "merge_listing", "undo_listing"]
NAMES = ["tiny", "typical", "large", "flat", "many", "strings", "numbers"]


def makers(document, patch):
    """The operations that a maker may send, a test first, as far as they succeed."""
    token, value = next(iter(document.items()))
    kept = [workloads.tst("/" + token.replace("~", "~0").replace("/", "~1"), value)]
    now = copy.deepcopy(document)
    for operation in patch:
        if operation["op"] not in ("test", "replace", "add") or not operation["path"]:
            continue
        try:
            now = workloads.apply(now, [operation])
        except Exception:
            continue
        kept.append(operation)
    return kept[: workloads.OPS]


def merging(document, wanted):
    """The merge patch that makes the one of the other."""
    if not isinstance(document, dict) or not isinstance(wanted, dict):
        return wanted
    patch = {name: None for name in document if name not in wanted}
    for name, value in wanted.items():
        if name not in document or document[name] != value:
            patch[name] = merging(document.get(name), value)
    return patch


def texts(name):
    """The files of each call for a workload."""
    document, patch, wanted = (json.loads((OUT / f"{name}.{kind}.json").read_text(encoding="utf-8")) for kind in
                               ("doc", "patch", "want"))
    made = {"within": makers(document, patch), "merge": merging(document, wanted)}
    for call, value in made.items():
        text = json.dumps(value, separators=(",", ":"), ensure_ascii=False)
        (OUT / f"{name}.{call}.json").write_text(text, encoding="utf-8")
    files = {call: str(OUT / f"{name}.{call}.json") for call in made}
    files["apply"] = files["undo"] = str(OUT / f"{name}.patch.json")
    return str(OUT / f"{name}.doc.json"), files


def counted(command, calls):
    with tempfile.NamedTemporaryFile() as out:
        command = ["valgrind", "--tool=callgrind", "--callgrind-out-file=" + out.name, *command, str(calls)]
        result = subprocess.run(command, capture_output=True, text=True, check=True)
    return int(result.stderr.split("Collected : ")[1].split()[0])


def instructions(command):
    """Of one call: a run with few calls is taken from one with more."""
    few, more = (counted(command, calls) for calls in (1, 4))
    return (more - few) / 3


def main():
    OUT.mkdir(parents=True, exist_ok=True)
    program = str(OUT / "origins")
    archives = [str(LIBRARY / f"lib{name}.a") for name in ARCHIVES]
    for archive in archives:
        if not os.path.exists(archive):
            sys.exit(f"no {archive}: run tools/staticlib.sh first")
    compiler = [os.environ.get("CC", "gcc"), "-O2", "-std=c99", "-Wall", "-Wextra", "-I%s" % (ROOT / "include")]
    subprocess.run([*compiler, str(ROOT / "bench" / "origins.c"), *archives, "-o", program], check=True)
    with open(os.devnull, "w", encoding="utf-8") as nothing:
        subprocess.run([sys.executable, str(ROOT / "bench" / "workloads.py"), str(OUT)], stdout=nothing, check=True)
    calls = sys.argv[1:] or ["apply", "within", "merge", "undo"]
    print("| call | workload | without, thousands | with a list | ratio | without, ns | with a list | ratio |")
    print("|---|---|---|---|---|---|---|---|")
    for call in calls:
        for name in NAMES:
            document, files = texts(name)
            command = [program, call, document, files[call]]
            timed = subprocess.run([*command, "time"], capture_output=True, text=True, check=True).stdout.split()
            if timed[0] == "refused":
                print(f"| {call} | {name} | refused {timed[1]} | | | | | |", flush=True)
                continue
            plain, listed = (instructions([*command, how]) for how in ("without", "with"))
            slow = [float(each) for each in timed]
            print("| %s | %s | %.1f | %.1f | %.3f | %.0f | %.0f | %.3f |" % (
                call, name, plain / 1000, listed / 1000, listed / plain, *slow, slow[1] / slow[0]), flush=True)


main()
