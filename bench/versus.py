"""Two builds of this library compared on all workloads: time and instructions.
Usage: versus.py DRIVER_A DRIVER_B WORKLOADS   (see run.sh)

The two builds take turns, in alternate order; of RUNS runs of TARGET seconds the
least is taken, of processor time. Instructions are counted by callgrind in one call
of each document. A ratio below 1 means that B is quicker. COUNT=0 leaves out the
instructions, TIME=0 the time, ONLY="tiny many" the other workloads.
"""
import os
import statistics
import subprocess
import sys
import tempfile

from common import COUNTED, IN_TURN, columns, rounds_for, run, shown, timed

RUNS = int(os.environ.get("RUNS", "31"))
TARGET = float(os.environ.get("TARGET", "0.01"))


def instructions(driver, task):
    """Of one call of each document, within the library alone."""
    with tempfile.NamedTemporaryFile() as out:
        result = subprocess.run(["valgrind", "--tool=callgrind", "--callgrind-out-file=" + out.name,
                                 "--toggle-collect=json_patch_apply", driver, *task, "0"],
                                capture_output=True, check=True, env=COUNTED)
    return int(result.stderr.split(b"Collected : ")[1].split()[0]) / (len(task) // 2)


def times(drivers, tasks):
    """The runs of each driver on each task, all in turn."""
    rounds = {id(task): rounds_for(drivers[0], task, TARGET) for task in tasks}
    found = {(driver, id(task)): [] for driver in drivers for task in tasks}
    for turn in range(RUNS):
        for task in tasks:
            for driver in drivers[::-1] if turn % 2 else drivers:
                found[driver, id(task)].append(timed(driver, task, rounds[id(task)])[1])
    return found


def head(title):
    print("\n%s\n\n| workload | A | B | B / A |\n|---|---|---|---|" % title)


def row(name, a, b, unit):
    return "| %s | %s | %s | %.3f |" % (name, shown(a / unit), shown(b / unit), b / a)


def main():
    *drivers, work = sys.argv[1:]
    table = columns(work)
    tasks = [task for column in table.values() for task in column]
    for task in tasks:
        results = [run(driver, task, 0) for driver in drivers]
        if results[0].stdout != results[1].stdout or any(result.returncode for result in results):
            sys.exit("The two differ on %s:\n%s" % (task[0], b"".join(result.stderr for result in results).decode()))
    print("Every result is the same, byte for byte.")
    if os.environ.get("TIME") != "0":
        found = times(drivers, tasks)
        least = {cell: min(runs) for cell, runs in found.items()}
        head("Microseconds of processor time a call, least of %d runs." % RUNS)
        ratios = []
        for name, column in table.items():
            a, b = (statistics.mean(least[driver, id(task)] for task in column) for driver in drivers)
            ratios.append(b / a)
            print(row(name, a, b, 1000))
        print("| geometric mean | | | %.3f |" % statistics.geometric_mean(ratios))
        spreads = [statistics.median(runs) / min(runs) - 1 for runs in found.values()]
        print("\nNoise: the median of a cell's runs lies above its least by %.0f %% typically, by %.0f %% at worst."
              % (100 * statistics.median(spreads), 100 * max(spreads)))
    if os.environ.get("COUNT") != "0":
        head("Thousands of instructions a call.")
        for name, column in table.items():
            if name != IN_TURN:
                a, b = (statistics.mean(instructions(driver, task) for task in column) for driver in drivers)
                print(row(name, a, b, 1000), flush=True)


main()
