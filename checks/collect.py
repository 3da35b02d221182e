"""Runs the tests of every subject. A test or a file that is left out makes the run fail."""

import importlib
import os
import sys
from pathlib import Path

import harness

# The number of tests in the file of each subject.
SUBJECTS = {
    "plan": 33,
    "workers": 5,
    "words": 7,
    "stores": 7,
    "streams": 24,
    "sessions": 25,
    "drops": 12,
    "bulk": 9,
    "containers": 10,
    "damage": 13,
    "audits": 22,
    "limits": 13,
    "faults": 20,
    "store_streams": 8,
    "interruptions": 9,
    "calls": 17,
    "disturbances": 7,
    "documents": 7,
    "manual": 20,
    "recipes": 13,
    "demo": 2,
}
OTHERS = {
    "collect",
    "crafted_stores",
    "examples",
    "folders",
    "full_stores",
    "harness",
    "made_stores",
    "manual_checks",
    "manual_page",
    "pipes",
    "reference",
    "reference_audit",
    "reference_bulk",
    "reference_store",
    "rooms",
    "tracing",
}


def collect(subject):
    """Reads in the tests of a subject, and returns how many there are."""
    before = len(harness.TESTS)
    importlib.import_module(subject)
    return len(harness.TESTS) - before


def left_out():
    """Says of each file which tests the list above does not have."""
    files = {path.stem for path in Path(__file__).parent.glob("*.py")}
    for name in sorted(files ^ {*SUBJECTS, *OTHERS}):
        yield f"{name}.py is a file of tests only here, or only in the list of subjects"
    for subject, wanted in SUBJECTS.items():
        if wanted != (came := collect(subject)):
            yield f"{subject}.py: wanted {wanted} tests, came {came}"


def main():
    tally = harness.Tally()
    faults = list(left_out())
    if not os.access(harness.PROGRAM, os.X_OK):
        faults.append(f"{harness.PROGRAM} is not there or cannot be run: rt ci builds it")
    print(*faults, sep="\n", end="\n" if faults else "")
    if not faults:
        tally = harness.run_tests()
    passed, failed, not_tried = tally
    collected = len(harness.TESTS)
    print(f"{collected} collected, {passed} passed, {failed} failed, {not_tried} not tried")
    return 0 if passed + not_tried == sum(SUBJECTS.values()) else 1


if __name__ == "__main__":
    sys.exit(main())
