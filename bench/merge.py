#!/usr/bin/env python3
"""Measures merge patches on three workloads, against nlohmann/json and taoJSON where
they are installed, and how the time grows with the members in any order.
Usage: merge.py DRIVERS FOLDER   (see merge.sh)

Each result is compared, as a JSON value, with that of the procedure of RFC 7396,
worked out here. Of RUNS runs the least is taken, of processor time.
"""
import json
import os
import random
import subprocess
import sys

RUNS = int(os.environ.get("RUNS", "9"))
DRIVERS = ["merge", "merge-nlohmann", "merge-taojson"]


def merged(target, patch):
    """RFC 7396, section 2."""
    if not isinstance(patch, dict):
        return patch
    if not isinstance(target, dict):
        target = {}
    target = dict(target)
    for name, value in patch.items():
        if value is None:
            target.pop(name, None)
        else:
            target[name] = merged(target.get(name), value)
    return target


def pack(k, r):
    return {"name": "pack-%d" % k, "mAh": 1000 + r.randrange(4000), "cut": [4.2, 3.0],
            "cells": {"series": r.randrange(1, 9), "parallel": r.randrange(1, 5)}, "note": "as delivered"}


def workloads():
    r = random.Random(7396)
    yield "small", {"mAh": 3000, "cut": [4.2, 3.0], "note": "old"}, {"note": None, "mAh": 3100, "maker": {"name": "acme"}}
    shelf = {"pack-%d" % k: pack(k, r) for k in range(20)}
    yield "typical", shelf, {"pack-%d" % k: {"mAh": 2500, "note": None, "cells": {"series": 7}} for k in (17, 3, 11, 25)}
    shelf = {"pack-%d" % k: pack(k, r) for k in range(180)}
    names = ["pack-%d" % k for k in range(90)] + ["pack-%d" % k for k in range(300, 320)]
    r.shuffle(names)
    yield "large", shelf, {name: {"mAh": 2500, "note": None, "cells": {"series": 7, "kind": "round"}} for name in names}
    yield "flat", flat(r, 2000), flat(r, 2000)


def flat(r, count):
    """So many members in any order."""
    names = list(range(count))
    r.shuffle(names)
    return {"m%d" % k: r.randrange(10) for k in names}


def growth():
    r = random.Random(2)
    for count in (250, 500, 1000, 2000):
        yield count, flat(r, count), flat(r, count)


def main():
    drivers, folder = sys.argv[1:]
    present = [d for d in DRIVERS if os.access(os.path.join(drivers, d), os.X_OK)]

    def written(name, document, patch):
        files = []
        for part, value in (("doc", document), ("patch", patch)):
            files.append(os.path.join(folder, "merge-%s.%s.json" % (name, part)))
            with open(files[-1], "w", encoding="utf-8") as file:
                json.dump(value, file, separators=(",", ":"))
        assert all(os.path.getsize(file) <= 32768 for file in files), name
        return files

    def least(driver, files, want):
        command = [os.path.join(drivers, driver), *files]
        got = subprocess.run(command + ["0"], capture_output=True, check=True).stdout
        assert json.loads(got) == want, driver
        calls = max(3, int(2e7 / float(subprocess.run(command + ["3"], capture_output=True, check=True).stdout.split()[3])))
        return min(float(subprocess.run(command + [str(calls)], capture_output=True, check=True).stdout.split()[3])
                   for _ in range(RUNS)) / 1000

    print("%-10s %7s %7s  %s" % ("workload", "bytes", "patch", "  ".join("%15s" % d for d in present)))
    for name, document, patch in workloads():
        files = written(name, document, patch)
        times = [least(d, files, merged(document, patch)) for d in present]
        cells = ["%8.2f (%4.1f)" % (t, t / times[0]) for t in times]
        print("%-10s %7d %7d  %s" % (name, os.path.getsize(files[0]), os.path.getsize(files[1]), "  ".join("%15s" % c for c in cells)))
    print("members in any order, microseconds:")
    for count, document, patch in growth():
        files = written("growth", document, patch)
        print("%6d %8.2f" % (count, least("merge", files, merged(document, patch))))


main()
