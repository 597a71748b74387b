import pathlib
import threading
import unittest

import mullerpink

GUEST = (pathlib.Path(__file__).resolve().parents[1] / "guest.wasm").read_bytes()
EXAMPLES = pathlib.Path(__file__).resolve().parents[2] / "examples"


class Calls(unittest.TestCase):
    def test_lines(self):
        self.assertEqual(mullerpink.run(["div", "-84", "2"], GUEST), "ok values i32:-42\n")
        self.assertEqual(mullerpink.run(["div", "1", "0"], GUEST), "trap IntegerDivisionByZero\n")
        self.assertEqual(mullerpink.run(["--fuel", "1000", "forever"], GUEST), "trap OutOfFuel\n")
        self.assertEqual(mullerpink.run(["--turns", "9", "forever"], GUEST), "refused TurnLimit\n")

    def test_errors(self):
        for words, module, code in ((["div"], GUEST[1:], 5), (["div"], b"", 5), (["missing"], GUEST, 6), (["div"], GUEST, 10),
                                    (["--turns", "0", "div"], GUEST, 2), (["div"], bytes(2**24 + 1), 4)):
            with self.assertRaises(mullerpink.Error) as seen:
                mullerpink.run(words, module)
            self.assertEqual(seen.exception.code, code)

    def test_calls(self):
        self.assertEqual(mullerpink.call(GUEST, "div", [("i32", -84), ("i32", 2)]), [("i32", -42)])
        with self.assertRaises(mullerpink.Trap) as seen:
            mullerpink.call(GUEST, "div", [("i32", 1), ("i32", 0)])
        self.assertEqual(seen.exception.name, "IntegerDivisionByZero")
        with self.assertRaises(mullerpink.Trap) as seen:
            mullerpink.call(GUEST, "forever", fuel=1000)
        self.assertEqual(seen.exception.name, "OutOfFuel")
        with self.assertRaises(mullerpink.Refused) as seen:
            mullerpink.call(GUEST, "forever", turns=9)
        self.assertEqual(seen.exception.name, "TurnLimit")

    def test_bytes(self):
        guest = (EXAMPLES / "wasm" / "encode.wasm").read_bytes()
        self.assertEqual(mullerpink.call_bytes(guest, "base64", b"Mullerpink"), b"TXVsbGVycGluaw==")
        self.assertEqual(mullerpink.call_bytes(guest, "moved", b"Hello, Zoo", [("i32", 13)]), b"Uryyb, Mbb")
        self.assertEqual(mullerpink.call_bytes(guest, "base64", bytes(30000)), b"A" * 40000)
        with self.assertRaises(mullerpink.Error) as seen:
            mullerpink.call_bytes(GUEST, "div", b"")
        self.assertEqual(seen.exception.code, 13)

    def test_call_errors(self):
        one, two = ("i32", 1), ("i64", 1)
        for name, module, arguments, turns, code in (
                ("div", GUEST, (one, one), 0, 2), ("div", bytes(2**24 + 1), (), 9, 4), ("div", GUEST[1:], (), 9, 5),
                ("missing", GUEST, (), 9, 6), ("div", GUEST, (one, two), 9, 10), ("div", GUEST, (one,), 9, 10),
                ("div", GUEST, (("funcref", 1),), 9, 16), ("div", GUEST, (("i32", 2**32),), 9, 16)):
            with self.assertRaises(mullerpink.Error) as seen:
                mullerpink.call(module, name, arguments, turns=turns)
            self.assertEqual(seen.exception.code, code)

    def test_sessions(self):
        for path in sorted(EXAMPLES.glob("*.json")):
            self.assertEqual(mullerpink.session(path.read_text()), path.with_suffix(".txt").read_text(), path.name)

    def test_threads(self):
        lines = []

        def divide(number):
            for _ in range(200):
                lines.append(mullerpink.run(["div", str(number * 2), "2"], GUEST) == f"ok values i32:{number}\n")

        threads = [threading.Thread(target=divide, args=(number,)) for number in range(4)]
        for thread in threads:
            thread.start()
        for thread in threads:
            thread.join()
        self.assertEqual(lines, [True] * 800)


if __name__ == "__main__":
    unittest.main()
