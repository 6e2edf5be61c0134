"""The Python module on the vectors of tests/vectors: `python3 bindings/python/test_wizbratel.py`, with WIZBRATEL_LIB naming
the folder of libwizbratel.so.0, which `tools/shared FOLDER` writes. Elsewhere WIZBRATEL_ROOT names the repository."""
import doctest
import json
import os
import pathlib
import pickle
import threading
import unittest

import wizbratel
from wizbratel import Frame, Refused, Stack, Table

ROOT = pathlib.Path(os.environ.get("WIZBRATEL_ROOT") or pathlib.Path(__file__).resolve().parents[2])
VECTORS = ROOT / "tests" / "vectors"


def cases(kind):
    """The cases of this kind in all three sets, but for those that a later request changes."""
    for path in sorted(VECTORS.glob("*%s.jsonl" % kind)):
        with open(path, encoding="utf-8") as lines:
            for line in lines:
                case = json.loads(line)
                if "before" not in case:
                    yield path.name, case


def refused(call, *given):
    """The number of the question that a call fails, or None, and what it gives."""
    try:
        return None, call(*given)
    except Refused as refusal:
        return refusal.number, None


def frames(listed, depth):
    """Listed frames as far as they are used; those of zeros at the end are not listed."""
    zeros = [[0, 0, 0, 0, 0]] * (min(depth, 65) - len(listed))
    return [Frame(equation, tuple(values)) for equation, *values in (listed + zeros)[:depth]]


def wanted(answer):
    """The number of an answer `refused N`, or None."""
    return int(answer.split()[1]) if answer.startswith("refused") else None


class Sheets(unittest.TestCase):
    def test_vectors(self):
        longer = 0
        for file, case in cases("sheets"):
            sheet = bytes.fromhex(case["sheet"])
            number, table = refused(Table.make, sheet)
            self.assertEqual(refused(wizbratel.check, sheet)[0], number, case["name"])
            if "stream" in case and number == 10:
                longer += 1  # names of sorts make its stream too long
                continue
            if "walk" in case:
                self.assertEqual(wizbratel.walk(sheet), case["walk"], case["name"])
            if "stream" in case:
                self.assertIsNone(number, case["name"])
                if file.startswith("sorts-"):
                    stream = b"".join(table.file[at + 4:at + 510] for at in range(0, len(table.file), 512))
                    self.assertEqual(stream.rstrip(b"\0"), bytes.fromhex(case["stream"]).rstrip(b"\0"), case["name"])
            elif case.get("refused") not in (None, 11):
                self.assertEqual(number, case["refused"], case["name"])
        self.assertLessEqual(longer, 1)

    def test_text_and_bytes(self):
        sheet = "act a; proc X = a.X; init X;"
        self.assertEqual(Table.make(sheet), Table.make(bytearray(sheet.encode())))
        self.assertEqual(refused(wizbratel.check, "act \u00e4; proc X = tau; init X;")[0], 2)
        self.assertEqual(refused(wizbratel.check, "act a;\0")[0], 2)


class Tables(unittest.TestCase):
    def test_vectors(self):
        for _, case in cases("tables"):
            self.assertEqual(refused(Table, bytes.fromhex(case["file"]))[0], wanted(case["answer"]), case["name"])

    def test_prints(self):
        for _, case in cases("prints"):
            number, table = refused(Table, bytes.fromhex(case["file"]))
            text = None
            if table:
                number, text = refused(table.print)
            if wanted(case["answer"]) != 11:
                self.assertEqual((number, text), (wanted(case["answer"]), case.get("text")), case["name"])


class Asks(unittest.TestCase):
    def ask(self, case):
        """The case's question as a list of one too: what is answered, and what is to be."""
        stack = Table(bytes.fromhex(case["file"])).stack(frames(case["frames"], case["depth"]))
        (answer,), after = stack.run([case["k"]])
        taken = stack.take(case["k"])
        if taken is None:
            self.assertEqual(after, stack)
            return answer.kind, None
        self.assertEqual((answer.kind, answer.label, after), ("step", *taken))
        self.assertEqual(answer.depth, after.depth)
        return answer.kind, taken

    def test_vectors(self):
        steps = 0
        for _, case in cases("asks"):
            number, asked = refused(self.ask, case)
            # frames that are not used but not zero, or of another number, cannot be said here
            sayable = case["lent"] == 64 and len(case["frames"]) <= case["depth"]
            if not sayable and wanted(case["answer"]) == 15:
                continue
            self.assertEqual(number, wanted(case["answer"]), case["name"])
            if number is None:
                self.assertEqual(asked[0], case["answer"], case["name"])
            if case["answer"] == "step":
                label, after = asked[1]
                steps += 1
                self.assertEqual(str(label), case["label"], case["name"])
                self.assertEqual(list(label.sorts), case.get("sorts", list(label.sorts)), case["name"])
                self.assertEqual(after.depth, case["depth_after"])
                self.assertEqual(after.frames, frames(case["frames_after"], after.depth), case["name"])
        self.assertGreater(steps, 100)

    def test_too_deep(self):
        stack = Table.make("act a; proc X = a.X.X; init X;").start()
        answers, deep = stack.run([0] * 65)
        self.assertEqual([answer.kind for answer in answers], ["step"] * 63 + ["too deep"] * 2)
        self.assertEqual((deep.depth, refused(deep.take, 0)[0]), (64, 16))
        self.assertEqual([tuple(step) for step in deep.steps()], [(0, None, None)])

    def test_stacks_are_keys(self):
        start = Table.make("sort D 3; act a: D; proc X(d: D) = sum(e: D, a(e).X(e)); init X(0);").start()
        seen, new = set(), [start]
        while new:
            stack = new.pop()
            if stack not in seen:
                seen.add(stack)
                new += [step.stack for step in stack.steps()]
        self.assertEqual(len(seen), 3)
        self.assertTrue(all(isinstance(stack, Stack) for stack in seen))

    def test_wrong_numbers(self):
        table = Table.make("act a; proc X = a.X; init X;")
        for k in (-1, 1 << 64):
            self.assertRaises(ValueError, table.start().take, k)
            self.assertRaises(ValueError, table.start().run, [k])
        for frame in ((256, (0, 0, 0, 0)), (0, (0,)), (0, (0, 0, 0, 300))):
            self.assertRaises(ValueError, table.stack, [frame])
        self.assertEqual(refused(table.stack, [Frame(0)] * 65)[0], 15)
        self.assertTrue(table.stack([]).ended)


class Words(unittest.TestCase):
    def test_questions(self):
        header = (ROOT / "include" / "wizbratel.h").read_text()
        self.assertIn('#define WIZBRATEL_VERSION "%s"\n' % wizbratel.version(), header)
        self.assertTrue(all(wizbratel.question(number).endswith("?") for number in range(1, 18)))
        self.assertEqual([wizbratel.question(number) for number in (-1, 0, 18, 255, 257)], [""] * 5)
        self.assertEqual(pickle.loads(pickle.dumps(Refused(9))).number, 9)

    def test_examples(self):
        failures, tried = doctest.testmod(wizbratel)
        self.assertEqual(failures, 0)
        self.assertGreater(tried, 8)

    def test_threads(self):
        sheet, texts = "act a; proc X = a.X; init X;", []
        threads = [threading.Thread(target=lambda: texts.append(Table.make(sheet).print())) for _ in range(8)]
        for thread in threads:
            thread.start()
        for thread in threads:
            thread.join()
        self.assertEqual(texts, ["act a;proc p0=a.p0;init p0;"] * 8)


if __name__ == "__main__":
    unittest.main()
