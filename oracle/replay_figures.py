"""The figures of the paper's section 'Sheet 0 and edge figures' and its printed example as calls,
each with its answer.

The answers stand here as the paper has them. The noises are no calls. AND on
sheet 0 is always over budget, so tensor and switch are shown on n = 2, q = 16 with
L = 1 and F = 0, where bounds of 0 fit; the tensor shows through a key that picks
its entries out, since q times 1 at column j and 0 elsewhere gives tensor entry j.
"""

from engine import HOUSE_SHEETS, Params
from replay_circuits import as_records
from replay_format import (AND, CHECK_FILE, DECRYPT, ENCRYPT, EVALUATE, MAKE, MAKE_SWITCHING_KEY, NOT,
                           PLAN, PLAN_FILE, PRINT_FILE, SHEET, XOR, answered)

SHEET_0, SHEET_1 = HOUSE_SHEETS[0], HOUSE_SHEETS[1]
QUIET = Params(2, 16, 1, 0, 0)

EXAMPLE_FILE = list(bytes.fromhex(
    "47 41 54 00 01 00 04 00 01 00 00 00 04 00 00 00 02 00 01 00 02 00 03"
    " 01 00 00 00 01 02 00 02 00 00 00 00 03 00 00"))
EXAMPLE_BOUNDS = [0, 0, 0, 2, 0, 0, 0, 2, 0, 0, 0, 34, 0, 0, 0, 34, 0, 0, 0, 36]
EXAMPLE_TEXT = list(b"0 IN 2\n1 IN 2\n2 AND 34\n3 NOT 34\n4 XOR 36\nOK 36 16383\n")

MASKS = [100, -100, 7, 0]
ERRORS = [1, 0, 0, -1]
SWITCHING_KEY = [-83, 116, 9, 15] + MASKS


def encryption(key, bit, mask, error, result):
    """An encryption on sheet 0, and the decryption of its result."""
    return [
        ((ENCRYPT, [SHEET_0, key, bit, [mask], error, [0, 0]]), [0, 0, 1] + result),
        ((DECRYPT, [SHEET_0, key, result]), [0, 0, bit]),
    ]


def quiet_and(left, right, key, result):
    """An AND of two ciphertexts with bounds of 0, with something in the scratch."""
    return (AND, [QUIET, left, 0, right, 0, key, [1, 2, 3, 4], [0, 0]]), [0] * 7 + result


def stated(number, bounds, answer, result=(0, 0)):
    """A gate of zeros on sheet 0 with these bounds. The paper does not say what it writes: the
    result is that of the definitions."""
    zero = [0, 0]
    fields = [x for bound in bounds for x in (zero, bound)]
    lent = [[0] * 8, [0] * 4, zero] if number == AND else [zero]
    scratch = [0] * 4 if number == AND else []
    return (number, [SHEET_0] + fields + lent), answer + scratch + list(result)


def bounded_and(bound, answer):
    """An AND of zeros on sheet 1 with twice this bound."""
    zero = [0] * 4
    fields = [SHEET_1, zero, bound, zero, bound, [0] * 64, [0] * 16, zero]
    return (AND, fields), answer + [0] * 20


def proved_figures():
    """The figures marked P."""
    both = [6, 3]
    return (
        encryption([1, 1], 1, 3, 1, both)
        + encryption([1, 1], 0, -8, 0, [-8, -8])
        + encryption([1, 1], 1, -8, -1, [-1, -8])
        + encryption([1, -1], 1, 5, 0, [-3, 5])
        + [
            ((XOR, [SHEET_0, both, 1, both, 1, [0, 0]]), [0, 0, 2, -4, 6]),
            ((DECRYPT, [SHEET_0, [1, 1], [-4, 6]]), [0, 0, 0]),
            ((NOT, [SHEET_0, both, 1, [0, 0]]), [0, 0, 1, -2, 3]),
            ((DECRYPT, [SHEET_0, [1, 1], [-2, 3]]), [0, 0, 0]),
            quiet_and(both, both, [16, 0, 0, 0, 0, 16, 0, 0], [5, 2]),
            quiet_and(both, both, [0, 0, 16, 0, 0, 0, 0, 16], [2, 1]),
            ((MAKE_SWITCHING_KEY, [SHEET_0, [1, 1], MASKS, ERRORS, [0] * 8]),
             [0, 0] + SWITCHING_KEY),
            quiet_and(both, both, SWITCHING_KEY, [7, 4]),
            ((DECRYPT, [SHEET_0, [1, 1], [7, 4]]), [0, 0, 1]),
            quiet_and([4, 4], [4, 4], SWITCHING_KEY, [7, 1]),
            bounded_and(2030, [0, 0, 16383]),
            bounded_and(2031, [10, 0, 0]),
        ]
    )


def slips():
    """What else the paper decides: -4.5 rounds to -4, and a size of just q/4 decrypts to 0."""
    return [quiet_and([-6, 0], [6, 0], [16, 0, 0, 0, 0, 16, 0, 0], [-4, 0])] + [
        ((DECRYPT, [SHEET_0, [1, 1], [c, 0]]), [0, 0, bit])
        for c, bit in ((4, 0), (-4, 0), (5, 1), (-5, 1))
    ]


def edge_figures():
    """The figures that are not marked P, and the six sheets."""
    return [
        ((MAKE, [Params(2, 16, 2, 3, 1)]), [0, 0, 2, 16, 2, 3, 1]),
        ((MAKE, [Params(2, 16, 2, 4, 1)]), [1, 0, 0, 0, 0, 0, 0]),
        stated(NOT, [3], [0, 0, 3], [-8, 0]),
        stated(NOT, [4], [8, 0, 0]),
        stated(XOR, [3, 0], [0, 0, 3]),
        stated(XOR, [4, 0], [8, 0, 0]),
        stated(XOR, [0, 4], [8, 0, 0]),
        stated(XOR, [1, 2], [0, 0, 3]),
        stated(XOR, [1, 3], [10, 0, 0]),
        stated(AND, [1, 1], [10, 0, 0]),
        stated(AND, [4, 0], [8, 0, 0]),
    ] + [
        ((SHEET, [k]), [0, 0, *p]) for k, p in enumerate(HOUSE_SHEETS)
    ] + [((SHEET, [6]), [1] + [0] * 6)]


def planned(p, bounds, gates, answer, made):
    """Planning on these inputs' bounds, with something in the gates'; what is made of them is left
    as found on a refusal."""
    found = [9] * len(gates)
    lent = [p, len(bounds), *(list(column) for column in zip(*gates)), bounds + found]
    return (PLAN, lent), answer + bounds + (made or found)


def quiet_circuit(gates, inputs, results):
    """Evaluation on the set of `quiet_and` with the switching key of the figures, all bounds 0."""
    count, wires = len(gates), len(inputs) // 2
    lent = [QUIET, wires, *(list(column) for column in zip(*gates)), inputs + [99] * (2 * count),
            [0] * wires + [99] * count, SWITCHING_KEY, [1, 2, 3, 4]]
    return (EVALUATE, lent), [0, 0] + inputs + results + [0] * (wires + count + 4)


def list_figures():
    """The bounds of the printed example, the figures of bounds as circuits of one gate, and those of
    ciphertexts as one circuit: XOR, NOT and AND of (6,3)."""
    of_two = [(1, 0, 1)]
    return [
        planned(SHEET_1, [2, 2], [(1, 0, 1), (2, 2, 0), (0, 3, 0)], [0, 0], [34, 34, 36]),
        planned(SHEET_1, [2030, 2030], of_two, [0, 0], [16383]),
        planned(SHEET_1, [2031, 2031], of_two, [10, 0], None),
        planned(SHEET_0, [1, 2], [(0, 0, 1)], [0, 0], [3]),
        planned(SHEET_0, [1, 3], [(0, 0, 1)], [10, 0], None),
        planned(SHEET_0, [1, 1], of_two, [10, 0], None),
        planned(SHEET_0, [4, 1], of_two, [8, 0], None),
        quiet_circuit([(0, 0, 0), (2, 0, 0), (1, 0, 0)], [6, 3], [-4, 6, -2, 3, 7, 4]),
    ]


def circuit_figures():
    """The same over gate records, and one of them with two numbers that are no gate after its gates."""
    records = [(as_records(call), answer) for call, answer in list_figures()]
    (number, (p, inputs, numbers, bounds)), answer = records[0]
    return list_figures() + records + [((number, [p, inputs, numbers + [0, 1], bounds]), answer)]


def file_figures():
    """The printed example: its check, its bounds and its text, and each buffer also a byte too short.
    The same at E = 2,048, where its AND does not fit."""
    long, over = len(EXAMPLE_TEXT), list(b"REFUSED 10 0\n")
    loud = EXAMPLE_FILE[:13] + [0, 0, 8, 0] + EXAMPLE_FILE[17:]
    return [
        ((CHECK_FILE, [EXAMPLE_FILE]), [0]),
        ((PLAN_FILE, [EXAMPLE_FILE, [9] * 20]), [0] + EXAMPLE_BOUNDS),
        ((PLAN_FILE, [EXAMPLE_FILE, [9] * 19]), [3 * 65536] + [9] * 19),
        ((PRINT_FILE, [EXAMPLE_FILE, [9] * long]), [0, 0, long] + EXAMPLE_TEXT),
        ((PRINT_FILE, [EXAMPLE_FILE, [9] * (long + 3)]), [0, 0, long] + EXAMPLE_TEXT + [9] * 3),
        ((PRINT_FILE, [EXAMPLE_FILE, [9] * (long - 1)]), [3, 0, 0] + [9] * (long - 1)),
        ((CHECK_FILE, [loud]), [10 * 65536]),
        ((PRINT_FILE, [loud, [9] * len(over)]), [0, 0, len(over)] + over),
    ]


def figures():
    """Every figure as a call and the paper's answer."""
    return proved_figures() + edge_figures() + slips() + circuit_figures() + file_figures()


def wrong_figures():
    """The figures to which this program answers otherwise: none."""
    return [call for call, answer in figures() if answered(call) != answer]
