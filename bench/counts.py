"""Instructions a call, counted by callgrind: the same every time, whatever else
the machine does.  Usage: counts.py DRIVERS WORKLOADS [DRIVER..]   (see run.sh)

A driver is run with few rounds and with more; the difference is divided by the
calls that were added, so that starting and reading files does not count.
"""
import os
import statistics
import subprocess
import sys
import tempfile

from common import COUNTED, IN_TURN, columns

OURS = "json_patch"


def count(driver, task, rounds):
    with tempfile.NamedTemporaryFile() as out:
        result = subprocess.run(["valgrind", "--tool=callgrind", "--callgrind-out-file=" + out.name, driver, *task,
                                 str(rounds)], capture_output=True, text=True, check=True, env=COUNTED)
    return int(result.stderr.split("Collected : ")[1].split()[0])


def main():
    folder, work = sys.argv[1:3]
    drivers = sys.argv[3:] or [OURS]
    table = {column: tasks for column, tasks in columns(work).items() if column != IN_TURN}
    ratios = "; in brackets the ratio to %s" % OURS if len(drivers) > 1 else ""
    print("Instructions a call, in thousands%s.\n" % ratios)
    print("| library | %s |" % " | ".join(table))
    print("|---" * (len(table) + 1) + "|")
    ours = {}
    for driver in sorted(drivers, key=lambda driver: driver != OURS):
        cells, path = [], os.path.join(folder, driver)
        for column, tasks in table.items():
            thousands = statistics.mean(count(path, task, 7) - count(path, task, 3) for task in tasks) / 4 / 1000
            ours.setdefault(column, thousands)
            cells.append("%.1f" % thousands + (" (%.2f)" % (thousands / ours[column]) if len(drivers) > 1 else ""))
        print("| %s | %s |" % (driver, " | ".join(cells)), flush=True)


main()
