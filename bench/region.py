"""The call with a region against the plain call: instructions a call, by callgrind.

    tools/staticlib.sh json_patch && tools/staticlib.sh region_call
    python3 bench/region.py            JSON_PATCH_LIB=DIR for archives elsewhere

The same document and the same maker's patch are put to both. A run with few calls
is taken from one with more, so that starting and reading files does not count.
"""
import json
import os
import subprocess
import tempfile
from pathlib import Path

ROOT = Path(__file__).resolve().parents[1]
LIBRARY = Path(os.environ.get("JSON_PATCH_LIB", ROOT / "target" / "staticlib"))
OUT = ROOT / "target" / "bench" / "region"


def shelf(packs, name):
    """A shelf of packs by their makers; `name` makes a maker's name."""
    return {"packs": {name(i): {"mAh": 3000 + i, "cut": [4.2, 3.0], "note": "cell %d" % i} for i in range(packs)}}


def patch(region, operations):
    """A test, and then replace, add and test in turn."""
    kinds = [("test", "/mAh", 3003), ("replace", "/cut/0", 4.15), ("add", "/mV", 4200), ("test", "/cut/1", 3.0)]
    return [{"op": op, "path": region + path, "value": value} for op, path, value in (kinds * operations)[:operations]]


def plain_name(i):
    return "maker%d" % i


def long_name(i):
    return "a maker with a name of some forty characters, %d" % i


def accented_name(i):
    return "Ärzte für eine Sammlung großer Zellen, Straße %d" % i


# the last of each: whether the texts have escapes for what is not ASCII
WORKLOADS = [
    ("2 operations, 5 packs", shelf(5, plain_name), "/packs/maker3", 2, False),
    ("8 operations, 40 packs", shelf(40, plain_name), "/packs/maker3", 8, False),
    ("128 operations, 40 packs", shelf(40, plain_name), "/packs/maker3", 128, False),
    ("256 operations, 5 packs", shelf(5, plain_name), "/packs/maker3", 256, False),
    ("256 operations, 5 packs, long names", shelf(5, long_name), "/packs/" + long_name(3), 256, False),
    ("256 operations, 5 packs, accents", shelf(5, accented_name), "/packs/" + accented_name(3), 256, False),
    ("256 operations, 5 packs, accents as escapes", shelf(5, accented_name), "/packs/" + accented_name(3), 256, True),
]


def count(command):
    with tempfile.NamedTemporaryFile() as out:
        command = ["valgrind", "--tool=callgrind", "--callgrind-out-file=" + out.name, *command]
        result = subprocess.run(command, capture_output=True, text=True, check=True)
    return int(result.stderr.split("Collected : ")[1].split()[0])


def each(program, files, region):
    few, more = (count([program, *files, region, str(calls)]) for calls in (2, 6))
    return (more - few) / 4


def main():
    OUT.mkdir(parents=True, exist_ok=True)
    program = str(OUT / "region")
    archives = [str(LIBRARY / name) for name in ("libjson_patch.a", "libregion_call.a")]
    source = str(ROOT / "bench" / "region.c")
    subprocess.run(["gcc", "-O2", "-std=c99", "-I%s" % (ROOT / "include"), source, *archives, "-o", program], check=True)
    print("| workload | plain | with a region | ratio |\n|---|---|---|---|")
    for name, document, region, operations, escapes in WORKLOADS:
        files = [str(OUT / kind) for kind in ("document.json", "patch.json")]
        for file, value in zip(files, (document, patch(region, operations))):
            Path(file).write_text(json.dumps(value, separators=(",", ":"), ensure_ascii=escapes), encoding="utf-8")
        plain, within = each(program, files, "plain"), each(program, files, region)
        print("| %s | %.1f | %.1f | %.3f |" % (name, plain / 1000, within / 1000, within / plain), flush=True)


main()
