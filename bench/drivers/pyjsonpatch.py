"""Python's jsonpatch; in_place=True is its fastest way. What it prints: driver.h."""
import json
import sys
import time

import jsonpatch


def once(document, patch):
    result = jsonpatch.JsonPatch(json.loads(patch)).apply(json.loads(document), in_place=True)
    return json.dumps(result, separators=(",", ":"), ensure_ascii=False)


def main():
    *files, rounds = sys.argv[1:]
    texts, rounds = [], int(rounds)
    for name in files:
        with open(name, encoding="utf-8") as file:
            texts.append(file.read())
    pairs = list(zip(texts[::2], texts[1::2]))
    try:
        results = [once(document, patch) for document, patch in pairs]
    except Exception as error:
        sys.exit("error: %s" % error)
    if rounds == 0:
        sys.stdout.write("\n".join(results))
        return

    def go(rounds):
        for _ in range(rounds):
            for document, patch in pairs:
                once(document, patch)

    go(rounds // 10)
    elapsed, processor = time.perf_counter_ns(), time.process_time_ns()
    go(rounds)
    calls = rounds * len(pairs)
    processor = (time.process_time_ns() - processor) / calls
    elapsed = (time.perf_counter_ns() - elapsed) / calls
    value, written = 14695981039346656037, "".join(results).encode()
    for byte in written:
        value = ((value ^ byte) * 1099511628211) & 0xFFFFFFFFFFFFFFFF
    print("%.0f %d %016x %.0f" % (elapsed, len(written), value, processor))


main()
