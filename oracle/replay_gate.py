"""The batch of the gate: the paper's figures, some random calls, circuits and circuit files, with this
program's answers.

It is stored beside the source of the program `replay`, which is run on it.
"""

import random
from pathlib import Path

import faults
import replay_circuits
import replay_files
from replay_batch import SMALL, make_batch
from replay_figures import figures, wrong_figures
from replay_format import NAMES, answered, spoken, written
from replay_tally import CIRCUIT_CALLS, FILE_CALLS, RECORD_CALLS, SINGLE_CALLS, Tally

STORED = Path(__file__).resolve().parent.parent / "crates" / "replay"
SEED, COUNT = 20243, 400
CIRCUIT_SEED, CIRCUITS = 22, 80
FILE_SEED, FILES, FILE_BYTES = 38, 60, 90

# The planted faults that are to be seen in the calls on sets, keys and ciphertexts, those that are
# to be seen in the calls on circuits, and those in the calls on files.
FAULTS = ("HALVES_AWAY_FROM_ZERO", "HALVES_DOWN", "EACH_PRODUCT_ROUNDED", "SUM_CUT_TO_64_BITS",
          "AND_BOUND_ONE_LESS", "AND_BOUND_ONE_FLOOR", "A_QUARTER_READS_ONE",
          "ENTRIES_FROM_ZERO_UP")
CIRCUIT_FAULTS = (
    "HALVES_AWAY_FROM_ZERO", "HALVES_DOWN", "EACH_PRODUCT_ROUNDED", "SUM_CUT_TO_64_BITS",
    "AND_BOUND_ONE_LESS", "AND_BOUND_ONE_FLOOR", "ENTRIES_FROM_ZERO_UP", "PLACE_OF_THE_LAST",
    "LAST_GATE_FREE", "UNUSED_GATES_FREE", "SCRATCH_LEFT")
FILE_FAULTS = ("AND_BOUND_ONE_LESS", "AND_BOUND_ONE_FLOOR", "PLACE_OF_THE_LAST", "LAST_GATE_FREE",
               "UNUSED_GATES_FREE")


def calls_of_the_gate():
    """The paper's figures, then random calls, then circuits, then files."""
    single = make_batch(random.Random(SEED), COUNT, SMALL)
    circuits = replay_circuits.make_circuits(
        random.Random(CIRCUIT_SEED), CIRCUITS, replay_circuits.SMALL)
    on_files = replay_files.make_files(random.Random(FILE_SEED), FILES, FILE_BYTES)
    return [call for call, _ in figures()] + list(single) + list(circuits) + list(on_files)


def files(calls):
    """The text of the calls, and their answers, by the names of their files."""
    text = "".join(written(call) for call in calls)
    return {"stdin": text, "stdout": "".join(spoken(text))}


def unseen_faults(names, calls):
    """The planted faults that give the same answer to every call."""
    right = [answered(call) for call in calls]
    return [name for name in names
            if all(answered(call, getattr(faults, name)) == answer
                   for call, answer in zip(calls, right))]


def complaints(calls):
    """What is wrong with the batch, or with the stored files."""
    tally = Tally()
    for call in calls:
        tally.take(call, answered(call))
    bad = [f"a figure is answered otherwise: {written(call)}" for call in wrong_figures()]
    bad += tally.seldom(1, NAMES)
    if not tally.circuits.both:
        bad.append("no circuit is refused with 9 after a gate that does not fit")
    bad += tally.files.seldom(1)
    for what, kinds, names in (("call", SINGLE_CALLS, FAULTS),
                               ("circuit", CIRCUIT_CALLS, CIRCUIT_FAULTS),
                               ("circuit of gate records", RECORD_CALLS, CIRCUIT_FAULTS),
                               ("file", FILE_CALLS, FILE_FAULTS)):
        some = [call for call in calls if call[0] in kinds]
        bad += [f"no {what} shows the planted fault {name}" for name in unseen_faults(names, some)]
    for name, text in files(calls).items():
        path = STORED / name
        if not path.exists() or path.read_text() != text:
            bad.append(f"{path} is not what --write makes")
    return bad


def check():
    """Prints what is wrong, or what there is. 1 where something is wrong."""
    calls = calls_of_the_gate()
    bad = complaints(calls)
    for line in bad:
        print(line)
    if not bad:
        sizes = ", ".join(f"{name} {len(text)} bytes" for name, text in files(calls).items())
        print(f"batch of the gate: {len(calls)} calls, every number that a call can give, "
              f"{len(FAULTS)} planted faults seen, {len(CIRCUIT_FAULTS)} in circuits either way, "
              f"{len(FILE_FAULTS)} in files, {sizes}")
    return 1 if bad else 0


def write():
    """Writes the stored files, and checks them."""
    for name, text in files(calls_of_the_gate()).items():
        (STORED / name).write_text(text)
    return check()
