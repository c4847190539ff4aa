"""The circuit file and the printer."""

import os
import subprocess
import sys
import unittest

import engine
from engine import HOUSE_SHEETS, Params
from testkit import (
    EXAMPLE_FILE,
    EXAMPLE_GATES,
    SHEET_1,
    file_bytes,
    gate_bytes,
    head_bytes,
)

EXAMPLE_TEXT = "0 IN 2\n1 IN 2\n2 AND 34\n3 NOT 34\n4 XOR 36\nOK 36 16383\n"
ENGINE = os.path.join(os.path.dirname(os.path.abspath(__file__)), "engine.py")


def answers(data, length):
    """What check and planning answer, and whether planning left its buffer alone."""
    buffer = bytearray(b"\xaa" * length)
    planned = engine.plan_file(data, buffer)
    return engine.check_file(data), planned, buffer == b"\xaa" * length


class Example(unittest.TestCase):
    def test_bytes(self):
        self.assertEqual(file_bytes(SHEET_1, 2, EXAMPLE_GATES), EXAMPLE_FILE)
        self.assertEqual(len(head_bytes(SHEET_1, 2, 3)), 23)

    def test_printed(self):
        self.assertEqual(engine.printed(EXAMPLE_FILE), EXAMPLE_TEXT)

    def test_check_and_plan(self):
        buffer = bytearray(b"\xff" * 20)
        self.assertEqual(engine.check_file(EXAMPLE_FILE), 0)
        self.assertEqual(engine.plan_file(EXAMPLE_FILE, buffer), 0)
        self.assertEqual(buffer.hex(), "0000000200000002000000220000002200000024")

    def test_in_a_buffer(self):
        for data, text in ((EXAMPLE_FILE, EXAMPLE_TEXT.encode()), (b"", b"REFUSED 12 0\n")):
            for length in (0, 1, len(text) - 1):
                buffer = bytearray(b"\xaa" * length)
                self.assertEqual(engine.print_file(data, buffer), (3, 0, 0))
                self.assertEqual(buffer, b"\xaa" * length)
            for more in (0, 1, 100):
                buffer = bytearray(b"\xaa" * (len(text) + more))
                self.assertEqual(engine.print_file(data, buffer), (0, 0, len(text)))
                self.assertEqual(buffer, text + b"\xaa" * more)

    def test_as_a_program(self):
        for data, text in ((EXAMPLE_FILE, EXAMPLE_TEXT), (b"", "REFUSED 12 0\n")):
            done = subprocess.run(
                [sys.executable, "-B", ENGINE], input=data, stdout=subprocess.PIPE, check=True
            )
            self.assertEqual(done.stdout, text.encode())


class Order(unittest.TestCase):
    """12 under 23 bytes, 11, 1, 2, 12 for the whole length, 3 of planning, 9, 10."""

    BAD_SET = SHEET_1._replace(F=1, L=0)
    BOUND_8192 = Params(4, 65536, 4, 8192, 1)

    def build(self, spoilt):
        """A file and a buffer length with every fault that is named in spoilt."""
        p = self.BAD_SET if 1 in spoilt else self.BOUND_8192
        inputs = 0 if 2 in spoilt else 1
        gates = [(2, 0, 0), (2, 0, 0), (2, 0, 0)]
        if 10 in spoilt:
            gates[0] = (0, 0, 0)
        if 9 in spoilt:
            gates[2] = (3, 0, 0)
        mark = b"GAS" if 11 in spoilt else b"GAT"
        data = head_bytes(p, inputs, 3, mark) + gate_bytes(gates)
        if "long" in spoilt:
            data += b"\0"
        if "short" in spoilt:
            data = data[:22]
        return data, 15 if 3 in spoilt else 16

    def test_every_set_of_faults(self):
        order = ["short", 11, 1, 2, "long", 3, 9, 10]
        numbers = {"short": 12, "long": 12}
        places = {9: 2}
        for chosen in range(1, 2 ** len(order)):
            spoilt = [name for i, name in enumerate(order) if chosen >> i & 1]
            for_check = [name for name in spoilt if name != 3]
            expected = []
            for faults in (for_check, spoilt):
                first = faults[0] if faults else 0
                expected.append(65536 * numbers.get(first, first) + places.get(first, 0))
            data, length = self.build(spoilt)
            self.assertEqual(answers(data, length), (*expected, True), spoilt)
            number, place = divmod(expected[0], 65536)
            if number:
                self.assertEqual(engine.printed(data), f"REFUSED {number} {place}\n")

    def test_short_files(self):
        for length in range(23):
            self.assertEqual(answers(EXAMPLE_FILE[:length], 20)[:2], (12 * 65536,) * 2)
            self.assertEqual(engine.check_file(b"\xff" * length), 12 * 65536)

    def test_lengths_after_the_head(self):
        for length in list(range(23, 38)) + [39, 43]:
            data = (EXAMPLE_FILE + b"\0" * 9)[:length]
            self.assertEqual(answers(data, 20), (12 * 65536, 12 * 65536, True))

    def test_mark_and_version(self):
        for place in range(5):
            data = bytearray(EXAMPLE_FILE)
            data[place] ^= 0x20
            self.assertEqual(answers(data, 20), (11 * 65536, 11 * 65536, True))
        for version in (0, 2, 256, 65535):
            data = head_bytes(SHEET_1, 2, 3, version=version) + gate_bytes(EXAMPLE_GATES)
            self.assertEqual(engine.check_file(data), 11 * 65536)

    def test_parameters_and_counts(self):
        for p in (SHEET_1._replace(n=1), SHEET_1._replace(q=65537),
                  SHEET_1._replace(L=4097), SHEET_1._replace(E=16384),
                  SHEET_1._replace(n=0), SHEET_1._replace(q=0), SHEET_1._replace(E=2**30)):
            self.assertEqual(engine.check_file(file_bytes(p, 2, EXAMPLE_GATES)), 65536)
        for inputs, gates in ((0, 3), (1025, 3), (65535, 3), (2, 0), (2, 4097), (2, 65535)):
            data = head_bytes(SHEET_1, inputs, gates) + bytes([2, 0, 0, 0, 0]) * gates
            self.assertEqual(engine.check_file(data), 2 * 65536)

    def test_buffer_of_planning(self):
        for length in (0, 4, 12, 19, 21, 24, 40):
            self.assertEqual(answers(EXAMPLE_FILE, length), (0, 3 * 65536, True))

    def test_places(self):
        gates = [(2, 0, 0)] * 4095
        nine = file_bytes(SHEET_1, 1, gates + [(2, 0, 1)])
        ten = file_bytes(self.BOUND_8192, 1, gates + [(0, 0, 0)])
        self.assertEqual(answers(nine, 4 * 4097), (9 * 65536 + 4095,) * 2 + (True,))
        self.assertEqual(answers(ten, 4 * 4097), (10 * 65536 + 4095,) * 2 + (True,))
        self.assertEqual(engine.printed(nine), "REFUSED 9 4095\n")


class Sizes(unittest.TestCase):
    def test_longest_file(self):
        data = file_bytes(SHEET_1, 1024, [(2, 1023 + g, 0) for g in range(4096)])
        self.assertEqual(len(data), 20503)
        buffer = bytearray(4 * 5120)
        self.assertEqual(engine.plan_file(data, buffer), 0)
        self.assertEqual(buffer, bytes([0, 0, 0, 2]) * 5120)
        self.assertTrue(engine.printed(data).endswith("5119 NOT 2\nOK 2 16383\n"))

    def test_one_byte_more(self):
        data = file_bytes(SHEET_1, 1024, [(2, 0, 0)] * 4096)
        self.assertEqual(engine.printed(data + b"\0"), "REFUSED 12 0\n")
        self.assertEqual(engine.printed(b"X" + data[1:] + b"\0"), "REFUSED 11 0\n")
        self.assertEqual(engine.printed(data[:5] + b"\0\1" + data[7:] + b"\0"), "REFUSED 1 0\n")

    def test_every_sheet(self):
        for sheet in HOUSE_SHEETS:
            data = file_bytes(sheet, 1, [(2, 0, 0)])
            text = f"0 IN {sheet.E}\n1 NOT {sheet.E}\nOK {sheet.E} {sheet.q // 4 - 1}\n"
            self.assertEqual(engine.printed(data), text)

    def test_output_is_the_last_gate(self):
        # Its bound is printed, not the largest one.
        data = file_bytes(SHEET_1, 1, [(1, 0, 0), (0, 1, 1), (2, 0, 0)])
        self.assertEqual(engine.printed(data),
                         "0 IN 2\n1 AND 34\n2 XOR 68\n3 NOT 2\nOK 2 16383\n")

    def test_sheet_0_refuses_and(self):
        data = file_bytes(HOUSE_SHEETS[0], 1, [(1, 0, 0)])
        self.assertEqual(engine.printed(data), "REFUSED 10 0\n")


if __name__ == "__main__":
    unittest.main()
