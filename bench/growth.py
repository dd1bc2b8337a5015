"""Time against size for the worst shapes, as a picture.
Usage: growth.py DRIVER PICTURE.svg   (see run.sh)
       growth.py --cases              the largest case of each shape, as a file of cases

Each shape is measured at eight sizes up to what the limits allow, those of the mixed
operations also with one operation; the processor time a call is the least of several
runs.  Where cost is linear the points lie on
the dashed line from the first to the last.  The printed table has the time at
full size and the growth from half of it: 2 is linear, 4 quadratic, and less than
2 means that a fixed part counts.
"""
import itertools
import json
import os
import subprocess
import sys
import tempfile

import workloads

RUNS = int(os.environ.get("RUNS", "5"))
TARGET = float(os.environ.get("TARGET", "0.01"))
STEPS = 8


def text(value):
    return json.dumps(value, separators=(",", ":"), ensure_ascii=False)


def operation(op, path, **others):
    return {"op": op, "path": path, **others}


def members(n):
    return {"m%04d" % i: i % 10 for i in range(n)}


# ---- shapes: a function from a size to document and patch --------------------

def flat_object(n):
    return text(members(n)), "[]"


def flat_array(n):
    return text(list(range(n))), "[]"


def nesting(n):
    """n towers of 31 nested arrays in an array."""
    return "[" + ",".join(["[" * 31 + "]" * 31] * n) + "]", "[]"


def nested_objects(n):
    return "[" + ",".join(['{"a":' * 31 + "0" + "}" * 31] * n) + "]", "[]"


def blanks(n):
    return "[" + " " * n + "]", "[]"


def long_string(n):
    return '"' + "a" * n + '"', "[]"


def wide_string(n):
    """Characters of two, three and four bytes."""
    return '"' + "é充😀" * n + '"', "[]"


def escapes(n):
    return '"' + "\\u00e9" * n + '"', "[]"


def surrogates(n):
    return '"' + "\\ud83d\\ude00" * n + '"', "[]"


def appends(n):
    return "[]", text([operation("add", "/-", value=0)] * n)


def flat_operations(n):
    """Every operation looks for one of the last members of a large object."""
    return text(members(1500)), text([operation("replace", "/m%04d" % (1499 - i), value=1) for i in range(n)])


def flat_members(n):
    """The same number of operations, the object growing."""
    return text(members(n)), text([operation("replace", "/m%04d" % (n - 1 - i), value=1) for i in range(128)])


def crowded_operations(n):
    """One operation with n members that are ignored."""
    return "[]", text([{**members(n), **operation("add", "/-", value=0)}])


def deep_paths(n):
    """Operations at the bottom of 31 nested arrays."""
    return "[" * 31 + "0" + "]" * 31, text([operation("replace", "/0" * 31, value=1)] * n)


def deep_inserts(n):
    """Elements put at the front of the innermost of 31 arrays."""
    return "[" * 31 + "0" + "]" * 31, text([operation("add", "/0" * 31, value=1)] * n)


def front_operations(n):
    """Elements put at the front of a large array."""
    return text([0] * 1700), text([operation("add", "/0", value=1)] * n)


def front_elements(n):
    """The same number of elements put at the front, the array growing."""
    return text([0] * n), text([operation("add", "/0", value=1)] * 256)


def repeated(cycle, n):
    """n operations: the cycle again and again. Every operation of it applies, also in the
    next turn, and the document stays about as large."""
    return text([cycle[i % len(cycle)] for i in range(n)])


def tiny_operations(n):
    """A document of 28 bytes, two operations in turn: what an operation costs by itself."""
    return '{"mAh":3000,"cut":[4.2,3.0]}', repeated(
        [operation("test", "/mAh", value=3000), operation("replace", "/cut/1", value=2.9)], n)


def typical_operations(n):
    """The document of workload `typical`, all six operations in turn."""
    soak = {"name": "soak", "mode": "CV", "limit": {"mA": 300, "mV": 4150}, "until": {"mA": 60, "minutes": 45}}
    return workloads.dump(workloads.typical()[0]), repeated([
        operation("test", "/schema", value="charge-profile/3"),
        operation("replace", "/cut/0", value=4.15),
        operation("add", "/stages/3", value=soak),
        operation("test", "/stages/3/until", value={"minutes": 45, "mA": 60}),
        operation("copy", "/stages/2/limit", **{"from": "/stages/1/limit"}),
        operation("move", "/pack/lot", **{"from": "/labels/lot"}),
        operation("remove", "/history/0"),
        operation("add", "/history/-", value={"at": "2024-11-18T08:30:00Z", "ev": "full", "mV": 4150}),
        operation("replace", "/safety/ovp", value=4230),
        operation("move", "/labels/lot", **{"from": "/pack/lot"}),
        operation("remove", "/stages/3"),
        operation("test", "/labels/line~1station", value="7/B")], n)


def deployment_operations(n):
    """The Kubernetes object of workload `real`, with its blanks, all six operations in turn."""
    spec = "/spec/template/spec/containers/0"
    return workloads.read(os.path.join(workloads.REAL, "deployment.doc.json")), repeated([
        operation("test", spec + "/name", value="server"),
        operation("add", "/metadata/annotations/example.org~1injected", value="true"),
        operation("replace", "/spec/replicas", value=5),
        operation("replace", spec + "/image", value="registry.example.org/charge/profile-server:1.9.0"),
        operation("add", spec + "/env/-", value={"name": "STORE_TIMEOUT", "value": "5s"}),
        operation("copy", spec + "/readinessProbe", **{"from": spec + "/livenessProbe"}),
        operation("replace", spec + "/readinessProbe/httpGet/path", value="/ready"),
        operation("remove", spec + "/env/3"),
        operation("move", "/spec/paused", **{"from": "/metadata/annotations/example.org~1injected"})], n)


def moves(n):
    """From the front of a large array to its end and back."""
    there, back = operation("move", "/1999", **{"from": "/0"}), operation("move", "/0", **{"from": "/1999"})
    return text([0] * 2000), text([there, back] * n)


def large_moves(n):
    """A large value between two members, there and back."""
    there, back = operation("move", "/b", **{"from": "/a"}), operation("move", "/a", **{"from": "/b"})
    return text({"a": [0] * n}), text([there, back] * 100)


def copies(n):
    """A large value copied and removed."""
    both = [operation("copy", "/b", **{"from": "/a"}), operation("remove", "/b")]
    return text({"a": [0] * n}), text(both * 100)


def equal_in_step(n):
    return text({"a": members(n)}), text([operation("test", "/a", value=members(n))])


def equal_reversed(n):
    return text({"a": members(n)}), text([operation("test", "/a", value=dict(reversed(members(n).items())))])


def equal_arrays(n):
    return text([0] * n), text([operation("test", "", value=[0] * n)])


def equal_numbers(n):
    """Numbers of 128 bytes whose zeros must be dropped."""
    one, other = "1" + "0" * 120 + "e-120", "0." + "0" * 118 + "1e+119"
    return "[" + ",".join([one] * n) + "]", '[{"op":"test","path":"","value":[' + ",".join([other] * n) + "]}]"


def equal_escapes(n):
    """The same string, spelt in two ways."""
    return '"' + "é" * n + '"', '[{"op":"test","path":"","value":"' + "\\u00e9" * n + '"}]'


# Differences of names of eight characters that do not change the hash of crate
# lexer: h -> (h * 165904091 + c) mod 2^28.
ALIKE = [
    [-3, -8, 2, 4, 0, 3, 0, -4],
    [5, -4, -2, 1, -4, 8, 3, -3],
    [0, -2, -2, 2, 2, 7, 5, 10],
    [-6, 2, 5, 2, -8, 1, 6, 4],
    [-3, 4, 8, -8, 3, 3, 4, 5],
    [2, -7, 2, -2, 3, -4, 6, -2],
    [2, 0, -4, 0, -5, 2, -5, 10],
    [2, 2, 7, 13, 1, -3, 0, 6],
]


def alike(n, before="", after=""):
    """n names made by hand to have one hash, as an enemy would."""
    names = []
    for factors in itertools.product((0, 1, -1), repeat=len(ALIKE)):
        sums = (sum(f * row[i] for f, row in zip(factors, ALIKE)) for i in range(8))
        name = "".join(chr(80 + s) for s in sums)
        if "\\" not in name:
            names.append(before + name + after)
    return names[:n]


def one_hash(n):
    return text({name: 0 for name in alike(n)}), "[]"


def one_hash_long(n):
    """Names of 64 characters that differ only in eight of the last fourteen."""
    return text({name: 0 for name in alike(n, "charge-profile-" * 3 + "pack-", "-limit")}), "[]"


def equal_one_hash(n):
    there = {name: 0 for name in alike(n)}
    return text({"a": there}), text([operation("test", "/a", value=dict(reversed(there.items())))])


SHAPES = [
    # (function, most, what one unit of size is, and a least size besides the eight)
    (flat_object, 2000, "members"),
    (flat_array, 2000, "elements"),
    (nesting, 64, "towers of 31 arrays"),
    (nested_objects, 60, "towers of 31 objects"),
    (blanks, 32760, "bytes"),
    (long_string, 32760, "bytes"),
    (wide_string, 3600, "times 9 bytes"),
    (escapes, 5400, "escapes"),
    (surrogates, 2700, "pairs"),
    (appends, 256, "operations"),
    (flat_operations, 256, "operations"),
    (flat_members, 2000, "members"),
    (crowded_operations, 2000, "members"),
    (deep_paths, 256, "operations"),
    (deep_inserts, 256, "operations"),
    (front_operations, 256, "operations"),
    (front_elements, 1700, "elements"),
    (tiny_operations, 256, "operations", 1),
    (typical_operations, 256, "operations", 1),
    (deployment_operations, 256, "operations", 1),
    (moves, 128, "pairs of moves"),
    (large_moves, 2000, "elements"),
    (copies, 1000, "elements"),
    (equal_in_step, 2000, "members"),
    (equal_reversed, 2000, "members"),
    (equal_arrays, 2000, "elements"),
    (equal_numbers, 250, "numbers"),
    (equal_escapes, 5400, "characters"),
    (one_hash, 2000, "members"),
    (one_hash_long, 450, "members"),
    (equal_one_hash, 2000, "members"),
]


def time(driver, files, calls):
    """Microseconds a call."""
    result = subprocess.run([driver, *files, str(calls)], capture_output=True, text=True)
    if result.stderr:
        sys.exit("growth.py: %s" % result.stderr)
    return float(result.stdout.split()[3]) / 1000


def measure(driver, folder):
    """For each shape its sizes with their times.  All points are measured in turn,
    and that several times, so that a burst of noise spoils no point for good."""
    found = []
    for shape, most, _, *least in SHAPES:
        found.append([])
        for size in least + [most * step // STEPS for step in range(1, STEPS + 1)]:
            files = [os.path.join(folder, "%s.%d.%s" % (shape.__name__, size, part)) for part in ("document", "patch")]
            for name, content in zip(files, shape(size)):
                with open(name, "w", encoding="utf-8") as file:
                    file.write(content)
            found[-1].append([size, time(driver, files, 5), files])
    for _ in range(RUNS):
        for point in itertools.chain(*found):
            calls = max(3, int(TARGET * 1e6 / point[1]))
            point[1] = min(point[1], time(driver, point[2], calls))
    return [[(size, least) for size, least, _ in points] for points in found]


def picture(results):
    """All shapes beside one another, as SVG."""
    columns, width, height = 4, 230, 165
    rows = -(-len(results) // columns)
    out = ['<svg xmlns="http://www.w3.org/2000/svg" viewBox="0 0 %d %d" font-family="sans-serif" font-size="10">'
           % (columns * width, rows * height), '<rect width="100%" height="100%" fill="white"/>']
    for index, (name, unit, points) in enumerate(results):
        left, top = index % columns * width + 40, index // columns * height + 24
        w, h = width - 56, height - 62
        most, longest = points[-1][0], max(took for _, took in points)

        def place(size, took):
            return left + w * size / most, top + h - h * took / longest

        out += ['<g stroke="#bbb" fill="none"><path d="M%d %dv%dh%d"/>' % (left, top, h, w),
                '<path stroke-dasharray="3 3" d="M%.1f %.1fL%.1f %.1f"/></g>' % (*place(*points[0]), *place(*points[-1])),
                '<polyline fill="none" stroke="#06c" points="%s"/>' % " ".join("%.1f,%.1f" % place(*p) for p in points)]
        out += ['<circle cx="%.1f" cy="%.1f" r="2" fill="#06c"/>' % place(*p) for p in points]
        out += ['<text x="%d" y="%d" font-weight="bold">%s</text>' % (left - 30, top - 10, name.replace("_", " ")),
                '<text x="%d" y="%d" text-anchor="end">%s</text>' % (left - 4, top + 8, "%.0f" % longest if longest >= 10 else "%.1f" % longest),
                '<text x="%d" y="%d" text-anchor="end">0 µs</text>' % (left - 4, top + h + 3),
                '<text x="%d" y="%d" text-anchor="end">%d %s</text>' % (left + w, top + h + 14, most, unit)]
    return "\n".join(out + ["</svg>", ""])


def main():
    if sys.argv[1:] == ["--cases"]:
        for shape, most, *_ in SHAPES:
            document, patch = (part.encode() for part in shape(most))
            sys.stdout.buffer.write(b"case %s 1000000 %d %d\n%s\n%s\n"
                                    % (shape.__name__.encode(), len(document), len(patch), document, patch))
        return
    driver, svg = sys.argv[1:]
    with tempfile.TemporaryDirectory() as folder:
        measured = measure(driver, folder)
    results = [(shape.__name__, unit, points) for (shape, _, unit, *_), points in zip(SHAPES, measured)]
    print("| shape | full size | µs | growth from half |\n|---|---|---|---|")
    for name, unit, points in results:
        (size, full), half = points[-1], points[-1 - STEPS // 2][1]
        print("| %s | %d %s | %.1f | %.2f |" % (name.replace("_", " "), size, unit, full, full / half))
    with open(svg, "w", encoding="utf-8") as file:
        file.write(picture(results))


main()
