"""Checks that are counted, for the tests of the gate that are written in Python."""
import sys

failures = 0
count = 0


def check(what, good, shown=""):
    global failures, count
    count += 1
    if not good:
        failures += 1
        print(f"FAILED: {what}: {shown!r:.600}")


def end(whose):
    """The last line of a test, and its exit status."""
    print(f"{count - failures} of {count} checks of {whose} passed")
    sys.exit(1 if failures else 0)
