"""Runs every test of the independent program. The exit status is 1 on any failure."""

import sys
import unittest

import test_edges
import test_figures
import test_file
import test_lists
import test_refusals
import test_reverse
import test_wide_sums
import test_widths

PARTS = (
    ("figures of the paper", test_figures),
    ("edges of the definitions", test_edges),
    ("ends of the widths", test_widths),
    ("sums beyond 64 bits", test_wide_sums),
    ("order of refusals", test_refusals),
    ("three lists", test_lists),
    ("circuit file", test_file),
    ("second ways", test_reverse),
)


def main():
    """Runs the parts in turn and prints one line for each."""
    failures = tests = 0
    for name, module in PARTS:
        suite = unittest.defaultTestLoader.loadTestsFromModule(module)
        result = unittest.TestResult()
        suite.run(result)
        bad = result.failures + result.errors
        for test, trace in bad:
            print(f"FAILED {test}\n{trace}")
        print(f"{name}: {result.testsRun} tests, {len(bad)} failed")
        tests += result.testsRun
        failures += len(bad)
    print(f"all: {tests} tests, {failures} failed")
    return 1 if failures or not tests else 0


if __name__ == "__main__":
    sys.exit(main())
