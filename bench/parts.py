"""Instructions and time by part of a call, as two tables.
Usage: parts.py DRIVER WORKLOADS   (see run.sh; the driver is linked statically, at a fixed address)

Instructions: callgrind, one call, each instruction with all its callers. It belongs to
the part of the outermost function below the call itself (OUTERMOST). Where the compiler
has made a function part of its caller, three differences between calls tell apart what
would be one:
    the document and nothing else         reading the document; the rest is reading the patch
    a patch with a number behind its operations, less one that ends wrongly there
                                          shape; the rest is finding members again
    an empty patch, less no patch         seeing that the output has room, part of writing
Lumped all the same: what is left of the call itself (the loop over operations, a copy's
mark) is with finding members again; spans brought up to date on the way back are with
walking. A short loop that stores 16 bytes at once moves nodes, also within a function
of another part, and is changing. FUNCTIONS=1 lists where each function's instructions went.

Time: samples by perf. A sample at an instruction is shared out among parts as that
instruction's executions are; then the shares are of the least processor time a call.
Without perf the shares are those of the instructions, and the table says so.
"""
import collections
import os
import re
import statistics
import subprocess
import sys
import tempfile

from common import COUNTED, IN_TURN, REAL, columns, rounds_for, shown, timed

RUNS = int(os.environ.get("RUNS", "11"))
SAMPLED = float(os.environ.get("SAMPLED", "1.5"))
SHOWN = ["tiny", REAL, IN_TURN, "typical", "many", "large"]
CALL = ("json_patch_apply", "trial_apply")
PARTS = ["reading the document", "reading the patch", "shape", "finding members again", "walking", "changing",
         "comparing", "writing", "clearing"]
DOCUMENT, PATCH, SHAPE, AGAIN, WALKING, CHANGING, COMPARING, WRITING, CLEARING = PARTS
OUTERMOST = [("reader::", PATCH), ("index::", PATCH), ("writer::", WRITING), ("equality::", COMPARING),
             ("walk::", WALKING), ("changes::", WALKING), ("memset", CLEARING)]
CHANGES = ("changes::trees::", "tape::nodes::within", "tape::moves::")
STORES = ("movups", "movaps", "movdqu", "movdqa")
MOVERS = ("changes::", "operations::", "tape::") + CALL


def plain(name):
    """memset and memmove have a name for each kind of processor."""
    found = re.match(r"__(memset|memmove|memcpy)_", name)
    return found.group(1) if found else name


def moving(driver):
    """The addresses within short loops that store 16 bytes at once."""
    lines = []
    command = ["objdump", "-d", "--no-show-raw-insn", driver]
    listing = subprocess.run(command, capture_output=True, text=True, check=True)
    for line in listing.stdout.split("\n"):
        found = re.match(r" *([0-9a-f]+):\t(\S+) *(.*)", line)
        if found:
            lines.append((int(found.group(1), 16), found.group(2), found.group(3)))
    found = set()
    for last, (address, word, operands) in enumerate(lines):
        target = re.match(r"([0-9a-f]+) <", operands) if word.startswith("j") else None
        if target and 0 < address - int(target.group(1), 16) < 128:
            first = last
            while first > 0 and lines[first][0] > int(target.group(1), 16):
                first -= 1
            if any(w in STORES and re.match(r"%xmm\d+,.*\(", o) for _, w, o in lines[first:last]):
                found.update(a for a, _, _ in lines[first:last + 1])
    return found


def profile(driver, document, patch, moves):
    """Executions by place and part. A place is an instruction of ours, or another's function."""
    with tempfile.NamedTemporaryFile() as out:
        subprocess.run(["valgrind", "--tool=callgrind", "--separate-callers=60", "--dump-instr=yes",
                        "--compress-strings=no", "--compress-pos=no", "--callgrind-out-file=" + out.name,
                        "--toggle-collect=" + CALL[0], driver, document, patch, "0"], capture_output=True, env=COUNTED)
        with open(out.name, encoding="utf-8") as file:
            lines = file.read().split("\n")
    counts, below, skip = collections.Counter(), [], False
    for line in lines:
        if line.startswith("fn="):
            names = [plain(name) for name in line[3:].split("'") if not name.isdigit()]
            below = names[:next((i for i, name in enumerate(names) if name in CALL), 0)]
            name = names[0]
        elif line.startswith("calls="):
            skip = True
        elif line.startswith("0x"):
            address, _, count = line.split()
            if not skip:
                ours = "::" in name or name in CALL
                moved = name.startswith(MOVERS) and int(address, 16) in moves
                counts[name, int(address, 16) if ours else None, part_of(below, moved)] += int(count)
            skip = False
    return counts


def part_of(below, moved):
    """The part by the functions below the call, the outermost last."""
    part = next((part for name, part in OUTERMOST if below and below[-1].startswith(name)), AGAIN)
    if part in (WALKING, AGAIN) and (moved or any(name.startswith(CHANGES) for name in below)):
        return CHANGING
    return part


def difference(more, less):
    counts = collections.Counter(more)
    counts.subtract(less)
    return counts


def executions(driver, document, patch, moves, folder):
    """For each place its executions by part, in one call."""
    def written(name, text):
        with open(os.path.join(folder, name), "w", encoding="utf-8") as file:
            file.write(text)
        return os.path.join(folder, name)

    with open(patch, encoding="utf-8") as file:
        operations = file.read().rstrip()[:-1]
    none, empty, null = written("none", ""), written("empty", "[]"), written("null", "0")
    all_of_it = profile(driver, document, patch, moves)
    read = profile(driver, document, none, moves)
    shape = difference(profile(driver, null, written("number", operations + ",0]"), moves),
                       profile(driver, null, written("wrong", operations + ",0}"), moves))
    room = difference(profile(driver, document, empty, moves), read)
    found = collections.defaultdict(collections.Counter)
    for (name, address, part), count in all_of_it.items():
        for counts, other in {PATCH: [(read, DOCUMENT)], AGAIN: [(shape, SHAPE), (room, WRITING)]}.get(part, []):
            taken = min(count, max(0, counts[name, address, part]))
            found[name, address][other] += taken
            count -= taken
        found[name, address][part] += count
    return found


def summed(places):
    total = collections.Counter()
    for parts in places.values():
        total.update(parts)
    return total


def samples(driver, task, seconds):
    """How often each place was found, by perf; none where perf does not work."""
    rounds = rounds_for(driver, task, seconds)
    with tempfile.TemporaryDirectory() as folder:
        data = os.path.join(folder, "data")
        try:
            subprocess.run(["perf", "record", "-q", "-e", "cpu-clock:u", "-F", "4999", "-o", data, driver, *task,
                            str(rounds)], capture_output=True, check=True)
            text = subprocess.run(["perf", "script", "-i", data, "-F", "ip,sym"], capture_output=True, text=True,
                                  check=True).stdout
        except (OSError, subprocess.CalledProcessError):
            return None
    found = collections.Counter()
    for line in text.split("\n"):
        if line.strip():
            address, name = line.split(maxsplit=1)
            found[plain(name.strip()), int(address, 16)] += 1
    return found


def shares(places, sampled):
    """The parts' shares of the samples. One at an instruction that callgrind did not see
    counts as its function does; one outside of the call does not count."""
    functions = collections.defaultdict(collections.Counter)
    for (name, _), parts in places.items():
        functions[name].update(parts)
    total = collections.Counter()
    for (name, address), count in sampled.items():
        parts = places.get((name, address)) or functions.get(name)
        if parts:
            for part, executed in parts.items():
                total[part] += count * executed / sum(parts.values())
    return {part: total[part] / sum(total.values()) for part in PARTS}


def table(head, names, rows):
    total = {name: sum(rows[name].values()) for name in names}
    print("\n%s\n\n| part | %s |" % (head, " | ".join(names)))
    print("|---" * (len(names) + 1) + "|")
    for part in PARTS:
        cells = ["%s (%.0f %%)" % (shown(rows[n][part]), 100 * rows[n][part] / total[n]) for n in names]
        print("| %s | %s |" % (part, " | ".join(cells)))
    print("| **all** | %s |" % " | ".join(shown(total[n]) for n in names))


def mean(rows):
    return {part: statistics.mean(row[part] for row in rows) for part in PARTS}


def main():
    driver, work = sys.argv[1:]
    found = columns(work)
    names = [name for name in SHOWN if name in found and (name != IN_TURN or REAL in found)]
    moves = moving(driver)
    counts, times, places, perf = {}, {}, {}, True
    with tempfile.TemporaryDirectory() as folder:
        for name in names:
            if name != IN_TURN:
                places[name] = [executions(driver, *task, moves, folder) for task in found[name]]
                counts[name] = mean([{part: summed(p)[part] / 1000 for part in PARTS} for p in places[name]])
    for name in names:
        rows = []
        kinds = places[name] if name != IN_TURN else [collections.defaultdict(collections.Counter)]
        if name == IN_TURN:
            for kind in places[REAL]:
                for place, parts in kind.items():
                    kinds[0][place].update(parts)
        for task, kind in zip(found[name], kinds):
            rounds = rounds_for(driver, task, 0.02)
            least = min(timed(driver, task, rounds)[1] for _ in range(RUNS)) / 1000
            sampled = samples(driver, task, SAMPLED / len(kinds))
            perf = perf and bool(sampled)
            total = summed(kind)
            share = shares(kind, sampled) if sampled else {p: total[p] / sum(total.values()) for p in PARTS}
            rows.append({part: least * share[part] for part in PARTS})
        times[name] = mean(rows)
    counted = [name for name in names if name != IN_TURN]
    table("Thousands of instructions a call (callgrind).", counted, counts)
    table("Microseconds of processor time a call, least of %d runs, shared out %s." %
          (RUNS, "by samples (perf)" if perf else "as the instructions are, since perf does not work here"),
          names, times)
    if os.environ.get("FUNCTIONS"):
        functions(places)


def functions(places):
    """Where each function's instructions went, in all the documents: to judge the parts."""
    total = collections.defaultdict(collections.Counter)
    for kinds in places.values():
        for kind in kinds:
            for (name, _), parts in kind.items():
                total[name].update(parts)
    print()
    for name, parts in sorted(total.items(), key=lambda item: -sum(item[1].values())):
        print("%-40s %s" % (name, ", ".join("%s %d" % (part, count) for part, count in parts.most_common() if count)))


main()
