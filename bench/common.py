"""What the measuring scripts share: the columns of a table, and a driver's run."""
import os
import subprocess

# For callgrind: it counts `rep stosb` and `rep movsb` once for each byte, so that a
# memset of 96 KiB seems to be 98,304 instructions. With these glibc writes and copies
# in a loop of vectors instead. And no symbol is looked up within a call.
COUNTED = {**os.environ, "LD_BIND_NOW": "1", "GLIBC_TUNABLES": "glibc.cpu.x86_rep_stosb_threshold=1000000000"
           ":glibc.cpu.x86_rep_movsb_threshold=1000000000"}

SEVEN = ["tiny", "typical", "large", "flat", "many", "strings", "numbers"]
REAL, IN_TURN = "real", "real, in turn"


def columns(work):
    """For each column its tasks. A task is the files that one run of a driver takes:
    a document and its patch, or several pairs that are gone through in turn. A
    column's figure is the mean over its tasks. ONLY="tiny real" leaves out the
    other columns ("in-turn" stands for real, in turn)."""
    def pair(name):
        return [os.path.join(work, "%s.%s.json" % (name, kind)) for kind in ("doc", "patch")]

    def pairs(begin, end=".doc.json"):
        names = sorted(name for name in os.listdir(work) if name.startswith(begin) and name.endswith(end))
        return [pair(name[:-len(end)]) for name in names]

    found = {name: [pair(name)] for name in SEVEN}
    found[REAL] = pairs("real-")
    found[IN_TURN] = [sum(pairs("turn-"), [])]
    only = os.environ.get("ONLY", "").replace("in-turn", IN_TURN)
    return {name: tasks for name, tasks in found.items() if not only or name in listed(only)}


def listed(only):
    return [IN_TURN] * (IN_TURN in only) + only.replace(IN_TURN, "").split()


def run(driver, task, rounds):
    return subprocess.run([driver, *task, str(rounds)], capture_output=True)


def timed(driver, task, rounds):
    """Nanoseconds and nanoseconds of processor time a call."""
    fields = run(driver, task, rounds).stdout.split()
    return float(fields[0]), float(fields[3])


def rounds_for(driver, task, seconds):
    """As many rounds as take about that long."""
    nanoseconds = min(timed(driver, task, 3)[0], timed(driver, task, 30)[0])
    return max(3, int(seconds * 1e9 / (nanoseconds * (len(task) // 2))))


def shown(number):
    return "%.2f" % number if number < 10 else "%.1f" % number if number < 100 else "%.0f" % number
