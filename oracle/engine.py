"""The whole engine as plain Python, written from the paper alone.

Every public call is gathered here. Each takes whole numbers and lists of any
length and content, raises on none of them, and changes its buffers only as the
paper says. Nothing checks widths, since Python's numbers have none. In the
engine parameters, bounds, the bit and gate fields are unsigned 32-bit numbers,
key entries are signed 32-bit, and masks, ciphertexts, errors and switching
entries are signed 64-bit.

Run as a program it is the budget printer: a circuit file on standard input,
its bounds on standard output.
"""

import sys

from arith import PAPER, Rules, and_bound, centred, inner, round_half_up
from calls import (
    Answer,
    Bounded,
    Decrypted,
    Made,
    and_gate,
    check_bench_key,
    check_key,
    decrypt,
    encrypt,
    house_sheet,
    make_bench_key,
    make_params,
    make_switching_key,
    not_gate,
    xor_gate,
)
from circuit import AND, NOT, XOR, Gate, evaluate, evaluate_lists, plan, plan_lists
from definitions import multiplier, switch, tensor, true_noise
from gatfile import check_file, plan_file, print_file, printed
from params import HOUSE_SHEETS, Params, fits_budget, largest_that_fits

__all__ = [
    "AND", "Answer", "Bounded", "Decrypted", "Gate", "HOUSE_SHEETS", "Made", "NOT",
    "PAPER", "Params", "Rules", "XOR", "and_bound", "and_gate", "centred",
    "check_bench_key", "check_file", "check_key", "decrypt", "encrypt", "evaluate",
    "evaluate_lists", "fits_budget", "house_sheet", "inner", "largest_that_fits",
    "make_bench_key", "make_params", "make_switching_key", "multiplier", "not_gate", "plan",
    "plan_file", "plan_lists", "print_file", "printed", "round_half_up", "switch", "tensor", "true_noise",
    "xor_gate",
]


def main():
    """Prints the bounds of the circuit file on standard input."""
    sys.stdout.write(printed(sys.stdin.buffer.read()))


if __name__ == "__main__":
    main()
