"""The module json_patch: its documented examples, every field of a refusal, the
committed cases, and that it says what the header says."""

import ctypes
import doctest
import pickle
import re
import threading
import unittest
from pathlib import Path

import json_patch
from json_patch import (
    Compared, Counts, Kind, Listed, Origin, Patched, PatchedListed, Pointer, Refusal, UndoRefusal,
    apply, apply_with_origins, apply_with_undo, apply_with_undo_and_origins, compare, inspect, merge,
    merge_with_origins,
)

ROOT = Path(__file__).resolve().parents[2]


def refused(document, patch, **options):
    """The refusal of a call."""
    try:
        result = apply(document, patch, **options)
    except Refusal as refusal:
        return refusal
    raise AssertionError(f"not refused: {result!r}")


class Calls(unittest.TestCase):
    def test_documented_examples(self):
        results = doctest.testmod(json_patch)
        self.assertGreaterEqual(results.attempted, 5)
        self.assertEqual(results.failed, 0)

    def test_numbers_are_exact(self):
        self.assertEqual(apply(b"[1.10,1E400]", b"[]"), b"[1.10,1E400]")
        patch = b'[{"op":"test","path":"","value":9007199254740992.0}]'
        self.assertEqual(refused(b"9007199254740993.0", patch).number, Kind.TEST_DIFFERS)
        patch = b'[{"op":"test","path":"","value":true}]'
        self.assertEqual(refused(b"1", patch).number, Kind.TEST_DIFFERS)

    def test_any_bytes_are_taken(self):
        for text in (bytearray(b"[ ]"), memoryview(b"[ ]"), memoryview(b"x[ ]")[1:], b"[ ]"):
            self.assertEqual(apply(text, b"[]"), b"[]")
            self.assertEqual(apply(b"{}", text), b"{}")
        self.assertEqual(refused(b"[\0]", b"[]").place, 1)
        self.assertEqual(refused(b"", b"[]").message, "document:1:1: not JSON text")

    def test_text_that_is_not_bytes_is_a_type_error(self):
        with self.assertRaisesRegex(TypeError, "document is a str: encode it"):
            apply("{}", b"[]")
        with self.assertRaisesRegex(TypeError, "patch is not bytes but list"):
            apply(b"{}", [])

    def test_inspect(self):
        data = ROOT / "crates" / "patch_count" / "data"
        self.assertEqual(inspect((data / "six.json").read_bytes()), Counts(1, 2, 3, 4, 5, 6))
        self.assertEqual(inspect(b"[]"), Counts(0, 0, 0, 0, 0, 0))
        for path in data.glob("refused-*.json"):
            with self.assertRaises(Refusal) as caught:
                inspect(path.read_bytes())
            self.assertEqual(caught.exception.number, int(path.stem.split("-")[1]), path.name)
        with self.assertRaisesRegex(Refusal, "patch:1:4: not JSON text"):
            inspect(b"[1,]")
        with self.assertRaisesRegex(TypeError, "patch is a str: encode it"):
            inspect("[]")

    def test_compare(self):
        self.assertEqual(compare(b'{"a":1,"b":[2]}', b'{"b":[2.0],"a":1e0}'), Compared(True, 3))
        self.assertEqual(compare(b'{"a":1,"b":2}', bytearray(b'{"a":9,"b":2}')), Compared(False, 1))
        self.assertEqual(compare(b'{"a":1,"b":2}', b'{"a":1}'), Compared(False, 0))
        with self.assertRaisesRegex(Refusal, "first:1:2: not JSON text") as caught:
            compare(b"[", b"")
        self.assertEqual((caught.exception.number, caught.exception.text), (Kind.NOT_JSON, 1))
        with self.assertRaisesRegex(Refusal, "second: the text is longer"):
            compare(b"0", b" " * 32_769)
        with self.assertRaisesRegex(TypeError, "second text is a str: encode it"):
            compare(b"0", "0")

    def test_region(self):
        document = b'{"a":{"b":1},"c":2}'
        patch = b'[{"op":"test","path":"/a/b","value":1},{"op":"add","path":"/a/d","value":2}]'
        for region in ("/a", b"/a", bytearray(b"/a"), ""):
            self.assertEqual(apply(document, patch, region=region), b'{"a":{"b":1,"d":2},"c":2}')
        refusal = refused(document, patch, region="/a/b")
        self.assertEqual((refusal.number, refusal.op), (Kind.NOT_PERMITTED, 1))
        refusal = refused(document, b"[]", region="/a")
        self.assertEqual((refusal.number, refusal.op), (Kind.NOT_PERMITTED, 0))
        self.assertEqual(refused(document, patch, region="a").message, "region: a pointer is malformed")
        with self.assertRaisesRegex(TypeError, "region is not bytes but int"):
            apply(document, patch, region=1)

    def test_room(self):
        self.assertEqual(apply(b"[1]", b"[]", room=3), b"[1]")
        self.assertEqual(refused(b"[1]", b"[]", room=2).number, Kind.OUTPUT_TOO_SHORT)
        self.assertEqual(refused(b"[1]", b"[]", room=0).number, Kind.OUTPUT_TOO_SHORT)
        with self.assertRaises(ValueError):
            apply(b"[1]", b"[]", room=-1)
        text = b'"' + 30_000 * b"x" + b'"'
        copies = b",".join(b'{"op":"copy","from":"/0","path":"/-"}' for _ in range(5))
        self.assertEqual(refused(b"[" + text + b"]", b"[" + copies + b"]").number, 16)
        self.assertEqual(len(apply(b"[" + text + b"]", b"[" + copies + b"]", room=1 << 20)), 180_019)

    def test_threads(self):
        results = {}

        def work(number):
            for _ in range(300):
                patch = b'[{"op":"add","path":"/-","value":%d}]' % number
                results[number] = apply(b"[]", patch)

        threads = [threading.Thread(target=work, args=(number,)) for number in range(6)]
        for thread in threads:
            thread.start()
        for thread in threads:
            thread.join()
        self.assertEqual(results, {number: b"[%d]" % number for number in range(6)})


class Refusals(unittest.TestCase):
    def test_fields(self):
        refusal = refused(b'{"a":1,\n "a":2}', b"[]")
        fields = (refusal.number, refusal.text, refusal.op, refusal.place, refusal.pointer)
        self.assertEqual(fields, (Kind.REPEATED_NAME, 1, 0, 11, Pointer.NONE))
        self.assertEqual(refusal.line, "refused 4 text 1 op 0 place 11 pointer 0")
        self.assertEqual(str(refusal), "document:2:4: a member name is repeated in one object")
        self.assertIsInstance(refusal, ValueError)

    def test_a_pointer_that_leads_nowhere(self):
        refusal = refused(b'{"a":[1]}', b'[{"op":"copy","from":"/a/x/y","path":""}]')
        fields = (refusal.number, refusal.text, refusal.op, refusal.place, refusal.pointer)
        self.assertEqual(fields, (Kind.NO_INDEX, 0, 1, 1, Pointer.FROM))
        self.assertEqual(refusal.line, "refused 12 text 0 op 1 place 1 pointer 2")

        def said(operation, words):
            message = str(refused(b'{"a":[1,{"b/c":{}}]}', b"[" + operation + b"]"))
            self.assertTrue(message.endswith(words), message)

        said(b'{"op":"test","path":"/x/y","value":1}', ': path: the root has no "x"')
        said(b'{"op":"add","path":"/a/3","value":1}', ': path: "/a" has no "3"')
        said(b'{"op":"remove","path":"/a/-"}', ': path: "/a" has no "-"')
        said(b'{"op":"remove","path":"/a/01"}', ': path: "/a" is an array, and "01" is no index')
        said(b'{"op":"remove","path":"\\/a/1\\u002fb~1c//x"}', ': path: "/a/1/b~1c" has no ""')
        said(b'{"op":"copy","from":"/a/9","path":"/b/c"}', ': from: "/a" has no "9"')
        said(
            b'{"op":"move","from":"/a/0","path":"/a/1/x"}',
            ': path, once from is removed: "/a" has no "1"',
        )

    def test_words(self):
        def said(patch, words, document=b'{"a":[1]}'):
            self.assertEqual(str(refused(document, patch)), words)

        said(b"[1,]", "patch:1:4: not JSON text")
        said(b"7", "patch: the patch is malformed")
        said(b"[7]", "patch: operation 1: the patch is malformed")
        said(b"[{}]", "patch: operation 1: the patch is malformed")
        said(b'[{"op":"x"}]', "patch: operation 1, x: the patch is malformed")
        said(
            b'[{"op":"remove","path":"/a/0"},{"op":"remove","path":"/a/0"}]',
            'patch: operation 2, remove "/a/0": the location does not exist: path: "/a" has no "0"',
        )
        said(
            b'[{"op":"move","from":"/a","path":"/a/0"}]',
            'patch: operation 1, move from "/a" to "/a/0": a value cannot be moved into its own child',
        )
        said(
            b'[{"op":"remove","path":"/\\u001b[31m\xe2\x80\xae"}]',
            'patch: operation 1, remove "/\\u001b[31m\\u202e": the location does not exist: '
            'path: the root has no "\\u001b[31m\\u202e"',
        )
        long = json_patch.MAX_BYTES + 1
        said(long * b" ", "patch: the text is longer than 32,768 bytes")
        said(b"[]", "document: the text is longer than 32,768 bytes", long * b" ")

    def test_a_refusal_can_be_pickled(self):
        refusal = refused(b"[1,]", b"[]")
        again = pickle.loads(pickle.dumps(refusal))
        self.assertEqual((again.args, str(again)), (refusal.args, str(refusal)))
        lost = refused(b"[]", b'[{"op":"remove","path":"/0"}]')
        again = pickle.loads(pickle.dumps(lost))
        self.assertEqual((again.pointer, again.line), (Pointer.PATH, lost.line))


class Undos(unittest.TestCase):
    def test_there_and_back(self):
        document = b'{"a":{"b":1,"c":2},"d":[1.50]}'
        patch = b'[{"op":"move","from":"/a/b","path":"/a"},{"op":"add","path":"/d/-","value":2}]'
        patched, undo = apply_with_undo(bytearray(document), memoryview(patch))
        self.assertEqual(patched, b'{"a":1,"d":[1.50,2]}')
        self.assertEqual(apply(patched, undo), document)
        self.assertEqual(apply_with_undo(b" 1 ", b"[]"), Patched(b"1", b"[]"))

    def test_rooms(self):
        patch = b'[{"op":"add","path":"/a","value":1}]'
        both = apply_with_undo(b"{}", patch, room=7, undo_room=29)
        self.assertEqual(both, (b'{"a":1}', b'[{"op":"remove","path":"/a"}]'))
        for rooms in ({"room": 6}, {"undo_room": 28}, {"room": 0}, {"undo_room": 0}):
            with self.assertRaises(Refusal) as refused:
                apply_with_undo(b"{}", patch, **rooms)
            self.assertEqual(refused.exception.number, Kind.OUTPUT_TOO_SHORT)
        with self.assertRaises(ValueError):
            apply_with_undo(b"{}", patch, undo_room=-1)

    def test_refusals_of_the_undo_and_of_the_patch(self):
        swap = b'{"op":"move","from":"/0","path":"/1"}'
        for count, kind in ((129, UndoRefusal), (257, Refusal)):
            with self.assertRaises(Refusal) as refused:
                apply_with_undo(b"[1,2]", b"[" + b",".join([swap] * count) + b"]")
            self.assertIs(type(refused.exception), kind)
            self.assertEqual(refused.exception.number, Kind.TOO_MANY_OPERATIONS)
        long = b'"' + 32_766 * b"a" + b'"'
        with self.assertRaises(UndoRefusal) as refused:
            apply_with_undo(long, b'[{"op":"replace","path":"","value":1}]')
        self.assertEqual(str(refused.exception), "undo: the text is longer than 32,768 bytes")
        self.assertEqual(refused.exception.line, "refused 2 text 2 op 0 place 0 pointer 0")
        again = pickle.loads(pickle.dumps(refused.exception))
        self.assertEqual((type(again), again.args), (UndoRefusal, refused.exception.args))
        with self.assertRaises(Refusal) as refused:
            apply_with_undo(b"1", 32_769 * b" ")
        self.assertIs(type(refused.exception), Refusal)
        self.assertEqual(str(refused.exception), "patch: the text is longer than 32,768 bytes")

    def test_the_committed_cases(self):
        folder = ROOT / "crates" / "undo_vectors"
        cases = (folder / "data" / "cases").read_bytes()
        lines = iter((folder / "stdout").read_bytes().split(b"\n"))
        at = count = 0
        while at < len(cases):
            end = cases.index(b"\n", at)
            _, name, *numbers = cases[at:end].split(b" ")
            room, undo_room, first, second = map(int, numbers)
            document = cases[end + 1 : end + 1 + first]
            patch = cases[end + 2 + first : end + 2 + first + second]
            at = end + first + second + 3
            try:
                patched, undo = apply_with_undo(document, patch, room=room, undo_room=undo_room)
                said = [b": " + patched, b" undo: " + undo, b" back: " + self.back(patched, undo)]
            except Refusal as refusal:
                said = [b": " + refusal.line.encode()]
            for line in said:
                self.assertEqual(name + line, next(lines))
            count += 1
        self.assertGreater(count, 250)

    def back(self, patched, undo):
        try:
            return apply(patched, undo)
        except Refusal as refusal:
            return refusal.line.encode()


class Origins(unittest.TestCase):
    document = b'{"mAh":3000,"cut":[4.2,3.0]}'

    def test_each_kind_of_operation(self):
        patch = (
            b'[{"op":"test","path":"/mAh","value":3e3},{"op":"replace","path":"/mAh","value":3100},'
            b'{"op":"copy","from":"/cut","path":"/old"},{"op":"move","from":"/cut","path":"/limits"},'
            b'{"op":"add","path":"/old/0","value":{"a/b":1}},{"op":"remove","path":"/limits/0"}]'
        )
        text, origins = apply_with_origins(bytearray(self.document), memoryview(patch))
        self.assertEqual(text, apply(self.document, patch))
        self.assertEqual(text, b'{"mAh":3100,"old":[{"a/b":1},4.2,3.0],"limits":[3.0]}')
        self.assertEqual(origins, (
            (0, ""), (2, "/mAh"), (3, "/old"), (5, "/old/0"), (5, "/old/0/a~1b"), (3, "/old/1"),
            (3, "/old/2"), (0, "/limits"), (0, "/limits/0"),
        ))
        self.assertIsInstance(origins[0], Origin)

    def test_names_and_numbers_of_every_kind(self):
        text = b'{"":[],"~":{"\\"\\n":1E400},"\xc3\xa9":-0.10}'
        self.assertEqual(
            apply_with_origins(text, b"[]"),
            Listed(text, tuple(
                Origin(0, pointer) for pointer in ("", "/", "/~0", '/~0/"\n', "/\u00e9")
            )),
        )

    def test_merge(self):
        patch = b'{"mAh":null,"maker":{"name":"acme","lot":{"old":null}}}'
        text, origins = merge_with_origins(self.document, patch)
        self.assertEqual(text, merge(self.document, patch))
        self.assertEqual([origin.op for origin in origins], [0, 0, 0, 0, 1, 1, 1])
        self.assertEqual(origins[-1], (1, "/maker/lot"))
        self.assertEqual(merge_with_origins(b"[1]", b"{}"), (b"{}", ((1, ""),)))

    def test_undo(self):
        patch = b'[{"op":"add","path":"/a","value":[1]}]'
        self.assertEqual(
            apply_with_undo_and_origins(b"{}", patch),
            PatchedListed(
                *apply_with_undo(b"{}", patch), (Origin(0, ""), Origin(1, "/a"), Origin(1, "/a/0"))
            ),
        )
        with self.assertRaisesRegex(UndoRefusal, "undo: more than 32 nested containers"):
            apply_with_undo_and_origins(31 * b"[" + 31 * b"]", b'[{"op":"add","path":"","value":0}]')
        with self.assertRaisesRegex(Refusal, "patch:1:2: not JSON text"):
            apply_with_undo_and_origins(b"{}", b"[")

    def test_region(self):
        patch = b'[{"op":"test","path":"/cut/0","value":4.2},{"op":"add","path":"/cut/-","value":1}]'
        origins = apply_with_origins(self.document, patch, region="/cut").origins
        self.assertEqual(origins[-1], (2, "/cut/2"))
        with self.assertRaises(Refusal) as refused:
            apply_with_origins(self.document, patch, region=b"/mAh")
        self.assertEqual((refused.exception.number, refused.exception.op), (Kind.NOT_PERMITTED, 1))

    def test_room_and_texts(self):
        self.assertEqual(apply_with_origins(b"1", b"[]", room=1).document, b"1")
        for call, patch in ((apply_with_origins, b"[]"), (merge_with_origins, b"{}"),
                            (apply_with_undo_and_origins, b"[]")):
            with self.assertRaises(Refusal) as refused:
                call(b"{}", patch, room=1)
            self.assertEqual(refused.exception.number, Kind.OUTPUT_TOO_SHORT)
            with self.assertRaisesRegex(ValueError, "room is less than 0"):
                call(b"{}", patch, room=-1)
            with self.assertRaisesRegex(TypeError, "document is a str: encode it"):
                call("{}", patch)

    def test_the_longest_list(self):
        zeros = b"[" + b",".join([b"0"] * 2046) + b"]"
        origins = apply_with_origins(zeros, b'[{"op":"add","path":"/-","value":0}]').origins
        self.assertEqual(len(origins), json_patch.MAX_NODES)
        self.assertEqual([origin.op for origin in origins], [0] * 2047 + [1])

    @unittest.skipUnless((ROOT / "crates" / "origin_vectors").is_dir(), "no committed cases")
    def test_the_committed_cases(self):
        folder = ROOT / "crates" / "origin_vectors"
        cases = (folder / "data" / "cases").read_bytes()
        lines = (folder / "stdout").read_bytes().split(b"\n")
        at = count = 0
        while at < len(cases):
            end = cases.index(b"\n", at)
            call, name, *numbers = cases[at:end].split(b" ")
            room, undo_room, entries, *lengths = map(int, numbers)
            at, texts = end + 1, []
            for length in lengths:
                texts.append(cases[at : at + length])
                at += length + 1
            if entries != json_patch.MAX_NODES:
                continue
            for line in self.said(call, texts, room, undo_room):
                self.assertIn(name + line, lines)
            count += 1
        self.assertGreater(count, 100)

    def said(self, call, texts, room, undo_room):
        document, patch, region = texts
        try:
            if call == b"undo":
                text, undo, origins = apply_with_undo_and_origins(
                    document, patch, room=room, undo_room=undo_room
                )
                yield b" undo: " + undo
            elif call == b"merge":
                text, origins = merge_with_origins(document, patch, room=room)
            else:
                within = {"region": region} if call == b"within" else {}
                text, origins = apply_with_origins(document, patch, room=room, **within)
        except Refusal as refusal:
            yield b": " + refusal.line.encode()
            return
        yield b": " + text
        yield b" origins: " + b" ".join(b"%d" % origin.op for origin in origins)


class Agreement(unittest.TestCase):
    header = (ROOT / "include" / "json_patch.h").read_text()

    def defined(self, name):
        return int(re.search(rf"#define JSON_PATCH_{name} (\d+)", self.header)[1])

    def test_the_header_has_the_same_numbers_and_words(self):
        numbers = re.search(r"enum json_patch_number {(.*?)}", self.header, re.S)[1]
        names = dict(re.findall(r"^    JSON_PATCH_(\w+) = (\d+)", numbers, re.M))
        self.assertEqual(names.pop("DONE"), "0")
        self.assertEqual({name: int(number) for name, number in names.items()},
                         {kind.name: int(kind) for kind in Kind})
        words = dict(re.findall(r'case JSON_PATCH_(\w+): return "(.*)";', self.header))
        self.assertEqual(words.pop("DONE"), "done")
        self.assertEqual(words, {kind.name: kind.meaning for kind in Kind})

    def test_the_header_has_the_same_pointers(self):
        names = dict(re.findall(r"#define JSON_PATCH_POINTER_(\w+) (\d+)", self.header))
        here = {pointer.name: str(int(pointer)) for pointer in Pointer if pointer}
        self.assertEqual(names, here)

    def test_the_header_has_the_same_limits(self):
        self.assertEqual(self.defined("MAX_BYTES"), json_patch.MAX_BYTES)
        self.assertEqual(self.defined("MAX_NODES"), json_patch.MAX_NODES)
        self.assertEqual(self.defined("TOOL_OUTPUT"), json_patch.OUTPUT)
        self.assertEqual(self.defined("WORK_NODES"), json_patch._NODES)
        self.assertEqual(self.defined("WORK_ENTRIES"), json_patch._ENTRIES)
        self.assertEqual(self.defined("UNDO_BYTES"), json_patch._UNDO_BYTES)
        self.assertIn(f'#define JSON_PATCH_VERSION "{json_patch.__version__}"', self.header)

    def test_the_header_has_the_same_structs(self):
        types = {
            "uint64_t": ctypes.c_uint64, "uint16_t": ctypes.c_uint16, "uint8_t": ctypes.c_uint8,
            "json_patch_node": json_patch._Node, "json_patch_work": json_patch._Work,
            "json_patch_answer": json_patch._Answer,
        }
        structs = {
            "answer": json_patch._Answer, "node": json_patch._Node, "work": json_patch._Work,
            "undo_answer": json_patch._UndoAnswer, "undo_work": json_patch._UndoWork,
        }
        for name, here in structs.items():
            body = re.search(rf"typedef struct json_patch_{name} {{(.*?)}}", self.header, re.S)[1]
            fields = []
            for kind, field, length in re.findall(r"(\w+) (\w+)(?:\[JSON_PATCH_(\w+)\])?;", body):
                size = ctypes.sizeof(types[kind])
                fields.append((field, size * self.defined(length) if length else size))
            self.assertTrue(fields)
            self.assertEqual(fields, [(field, ctypes.sizeof(kind)) for field, kind in here._fields_])

    def test_the_committed_cases(self):
        folder = ROOT / "crates" / "vectors"
        cases = (folder / "data" / "cases").read_bytes()
        lines = iter((folder / "stdout").read_bytes().split(b"\n"))
        at = count = 0
        while at < len(cases):
            end = cases.index(b"\n", at)
            _, name, *numbers = cases[at:end].split(b" ")
            room, first, second = map(int, numbers)
            document = cases[end + 1 : end + 1 + first]
            patch = cases[end + 2 + first : end + 2 + first + second]
            at = end + first + second + 3
            try:
                line = apply(document, patch, room=room)
            except Refusal as refusal:
                line = refusal.line.encode()
                self.assertTrue(refusal.message.startswith(("document:", "patch:")))
                lost = refusal.number in (Kind.LOCATION_MISSING, Kind.NO_INDEX)
                self.assertEqual(refusal.pointer != Pointer.NONE, lost)
            self.assertEqual(name + b": " + line, next(lines))
            count += 1
        self.assertGreater(count, 1700)

    def test_the_committed_cases_with_a_region(self):
        folder = ROOT / "crates" / "region_vectors"
        cases = (folder / "data" / "cases").read_bytes()
        lines = iter((folder / "stdout").read_bytes().split(b"\n"))
        at = count = 0
        while at < len(cases):
            end = cases.index(b"\n", at)
            _, name, *numbers = cases[at:end].split(b" ")
            room, *lengths = map(int, numbers)
            at, texts = end + 1, []
            for length in lengths:
                texts.append(cases[at : at + length])
                at += length + 1
            document, patch, region = texts
            try:
                line = apply(document, patch, region=region, room=room)
            except Refusal as refusal:
                line = refusal.line.encode()
                self.assertTrue(refusal.message.startswith(("document:", "patch:", "region:")))
            self.assertEqual(name + b": " + line, next(lines))
            count += 1
        self.assertGreater(count, 300)


if __name__ == "__main__":
    unittest.main()
