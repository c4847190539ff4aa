"""Planning and evaluation of a circuit that is lent as three lists: they are those of its gate
records where the lists have one length, and refuse with 3 where they have not.
"""

import copy
import unittest

import engine
from testkit import EXAMPLE_GATES, SHEET_1

KINDS, LEFTS, RIGHTS = ([gate[i] for gate in EXAMPLE_GATES] for i in range(3))


def lists(kinds=3, lefts=3, rights=3):
    """The example's three lists, cut to these lengths or made longer."""
    return [(column + column)[:count]
            for column, count in ((KINDS, kinds), (LEFTS, lefts), (RIGHTS, rights))]


def planned(p, inputs, three):
    """Planning with bounds of 2 on both inputs: the answer, and the bounds that are left."""
    bounds = [2, 2, 9, 9, 9]
    return engine.plan_lists(p, inputs, *three, bounds), bounds


def evaluated(p, inputs, three):
    """Evaluation of zeros with bounds of 2: the answer, and the buffers that are left."""
    lent = [[0] * 8 + [9] * 12, [2, 2, 9, 9, 9], [0] * 64, [9] * 16]
    return engine.evaluate_lists(p, inputs, *three, *lent), lent


class Lists(unittest.TestCase):
    def test_one_length_is_the_gate_records(self):
        self.assertEqual(planned(SHEET_1, 2, lists()), ((0, 0), [2, 2, 34, 34, 36]))
        lent = [[0] * 8 + [9] * 12, [2, 2, 9, 9, 9], [0] * 64, [9] * 16]
        other = copy.deepcopy(lent)
        engine.evaluate(SHEET_1, 2, EXAMPLE_GATES, *other)
        self.assertEqual(evaluated(SHEET_1, 2, lists()), ((0, 0), other))

    def test_a_list_that_is_longer_or_shorter(self):
        for run in (planned, evaluated):
            untouched = run(SHEET_1, 0, lists())[1]
            for other in ((2, 3, 3), (4, 3, 3), (3, 2, 3), (3, 4, 3), (3, 3, 2), (3, 3, 4),
                          (3, 0, 3), (3, 3, 0), (3, 2, 2), (2, 2, 2), (4, 4, 4)):
                self.assertEqual(run(SHEET_1, 2, lists(*other)), ((3, 0), untouched), other)

    def test_the_kinds_decide_how_many_gates(self):
        long = [[0] * 4097, [0] * 4096, [0] * 4096]
        for run in (planned, evaluated):
            self.assertEqual(run(SHEET_1, 2, lists(0, 3, 3))[0], (2, 0))
            self.assertEqual(run(SHEET_1, 2, long)[0], (2, 0))
            self.assertEqual(run(SHEET_1, 2, long[::-1])[0], (3, 0))

    def test_the_order(self):
        bad = SHEET_1._replace(q=65537)
        for run in (planned, evaluated):
            self.assertEqual(run(bad, 2, lists(3, 2, 3))[0], (1, 0))
            self.assertEqual(run(SHEET_1, 1025, lists(3, 2, 3))[0], (2, 0))
            self.assertEqual(run(SHEET_1, 2, [[3], [], []])[0], (3, 0))


if __name__ == "__main__":
    unittest.main()
