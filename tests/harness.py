"""What the tests of the built program share: a list of them, what they expect, and a line for each that fails."""

import traceback

TESTS = []


def test(function):
    """Takes a function among the tests, which are run in the order in which they are written."""
    TESTS.append(function)
    return function


def expect(got, want, what=""):
    if got != want:
        raise AssertionError(f"{what}: got {got!r}, want {want!r}")


def run_tests(call=lambda function: function(), limit=-1):
    """Runs each test by `call`, prints where one fails, and how many did; the status is 0 where none failed."""
    failed = 0
    for function in TESTS:
        try:
            call(function)
        except Exception:  # noqa: BLE001
            failed += 1
            print(f"{function.__name__}: {traceback.format_exc(limit=limit)}")
    print(f"{len(TESTS) - failed} passed, {failed} failed")
    return 1 if failed else 0
