"""Cases that go as deep as the limits allow, as a file of cases: every operation at
every depth, through arrays and objects, with plain and with escaped names, on
scalars and on nested values."""
import itertools
import json
import sys

# How one level is opened, closed and named in a pointer.
LEVELS = {
    "array": ("[0,", "]", "/1"),
    "object": ('{"x":0,"a":', "}", "/a"),
    "escaped": ('{"\\u00e9~/":', "}", "/\\u00e9~0~1"),
}
SCALARS = ["0", '"\\u00e9"', "1" + "0" * 100 + "e-100"]


def nested(level, depth, inner):
    begin, end, _ = LEVELS[level]
    return begin * depth + inner + end * depth


def operations(path, value):
    near = path[: path.rfind("/")] + "/"
    text = {"add": '"value":' + value, "replace": '"value":' + value, "test": '"value":' + value, "remove": '"x":0'}
    for op, rest in text.items():
        yield op, '{"op":"%s","path":"%s",%s}' % (op, path, rest)
    for op in ("move", "copy"):
        for there in (path, near + "0", near + "b", "", "/1", "/b"):
            yield op, '{"op":"%s","from":"%s","path":"%s"}' % (op, path, there)
            yield op, '{"op":"%s","path":"%s","from":"%s"}' % (op, path, there)


def main():
    number = 0
    for level, total in itertools.product(LEVELS, (31, 32)):
        for scalar, at in itertools.product(SCALARS, (0, 1, 15, 30, 31, 32)):
            if at > total:
                continue
            document = nested(level, total, scalar)
            path = LEVELS[level][2] * at
            value = nested(level, total - at, scalar)
            if at:
                cases = list(operations(path, value)) + list(operations(path, scalar))
            else:
                cases = [("test", '{"op":"test","path":"","value":%s}' % value)]
            for op, operation in cases:
                number += 1
                patch = "[%s]" % operation
                json.loads(patch)
                sys.stdout.write("case %s-%s-%d-%d 1000000 %d %d\n%s\n%s\n"
                                 % (op, level, at, number, len(document), len(patch), document, patch))


main()
