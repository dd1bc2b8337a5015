"""Measures every driver on every workload and prints one table.
Usage: table.py DRIVERS WORKLOADS   (see run.sh)

First each result is compared, as a JSON value, with the expected one; a driver
that fails or answers wrongly gets no time.  Then the drivers take turns, so that
a slow moment of the machine hits no one alone; of all runs of a cell the least
is taken, of processor time.  The figure for `real` is the mean over its documents,
each of them repeated in a process of its own; for `real, in turn` it is the mean
too, and one process goes through all of them again and again.  The ratio is to
this library: 2.0 takes twice as long.
"""
import json
import os
import statistics
import sys
import time

from common import columns, rounds_for, run, shown, timed

RUNS = int(os.environ.get("RUNS", "11"))
TARGET = float(os.environ.get("TARGET", "0.05"))
OURS = "json_patch"


def same(a, b):
    """Equal as JSON values; to Python, true and 1 are equal."""
    if isinstance(a, bool) or isinstance(b, bool):
        return a is b
    if isinstance(a, dict) and isinstance(b, dict):
        return a.keys() == b.keys() and all(same(a[k], b[k]) for k in a)
    if isinstance(a, list) and isinstance(b, list):
        return len(a) == len(b) and all(map(same, a, b))
    return a == b


def fault(driver, task):
    """What is wrong with the results: nothing, or a word and the driver's message."""
    wants = []
    for name in task[::2]:
        with open(name.replace(".doc.json", ".want.json"), encoding="utf-8") as file:
            wants.append(json.load(file))
    result = run(driver, task, 0)
    if result.returncode != 0:
        return "fails", result.stderr.decode(errors="replace").split("\n")[0][:120]
    try:
        if same([json.loads(line) for line in result.stdout.split(b"\n")], wants):
            return None
    except ValueError:
        pass
    return "wrong", ""


def main():
    folder, work = sys.argv[1:]
    drivers = [name for name in sorted(os.listdir(folder)) if not name.startswith("stack")]
    table = columns(work)
    note, rounds, times = {}, {}, {}
    for column, tasks in table.items():
        for driver in drivers:
            path = os.path.join(folder, driver)
            faults = [(task, found) for task in tasks for found in [fault(path, task)] if found]
            for task, (word, message) in faults:
                print("%s %s on %s %s" % (driver, word, os.path.basename(task[0]), message))
                note[driver, column] = word
            if not faults:
                for index, task in enumerate(tasks):
                    rounds[driver, column, index] = rounds_for(path, task, TARGET / len(tasks))
                    times[driver, column, index] = []
    start = time.time()
    for _ in range(RUNS):
        for column, tasks in table.items():
            for index, task in enumerate(tasks):
                for driver in drivers:
                    cell = driver, column, index
                    if cell in rounds:
                        times[cell].append(timed(os.path.join(folder, driver), task, rounds[cell])[1])

    least = {(driver, column): statistics.mean(min(times[driver, column, i]) for i in range(len(table[column]))) / 1000
             for driver, column, index in times if index == 0}

    def ratio(driver, column):
        return least[driver, column] / least[OURS, column]

    def mean(driver):
        if any((driver, column) not in least for column in table):
            return float("inf")
        return statistics.geometric_mean(ratio(driver, column) for column in table)

    print("\nMicroseconds of processor time a call (document and patch read, patch applied, result written),")
    print("least of %d runs; in brackets the ratio to %s.\n" % (RUNS, OURS))
    print("| library | %s | geometric mean |" % " | ".join(table))
    print("|---" * (len(table) + 2) + "|")
    for driver in sorted(drivers, key=mean):
        cells = ["%s (%.2f)" % (shown(least[driver, c]), ratio(driver, c)) if (driver, c) in least else note[driver, c]
                 for c in table]
        of_all = "%.2f" % mean(driver) if mean(driver) < float("inf") else "-"
        print("| %s | %s | %s |" % (driver, " | ".join(cells), of_all))
    spreads = [(statistics.median(runs) - min(runs)) / min(runs) for runs in times.values()]
    print("\nNoise: the median of a cell's runs lies above its least by %.0f %% typically, by %.0f %% at worst."
          % (100 * statistics.median(spreads), 100 * max(spreads)))
    print("Load of the machine %.1f on %d processors; %.0f s of measuring."
          % (os.getloadavg()[0], os.cpu_count(), time.time() - start))


main()
