"""The self test of the reference decoder: `python3 reference/selftest.py`.

Runs every part, prints what was exercised, and fails if anything is wrong or if an announced
count stayed 0.
"""

import sys
import time
import traceback

import test_calls
import test_depths
import test_division
import test_edges
import test_empty
import test_examples
import test_from_above
import test_kinds
import test_mutants
import test_optimal
import test_refusals
import test_search
import test_sole_cases
import test_soles
import test_sums
from support import Account

PARTS = [test_examples, test_division, test_search, test_optimal, test_soles, test_sole_cases,
         test_calls, test_sums, test_depths, test_from_above, test_edges, test_empty, test_refusals,
         test_kinds, test_mutants]


def run_test(test, account):
    """Whether the test held; a failure is shown with its place."""
    try:
        test(account)
    except Exception:
        traceback.print_exc(file=sys.stdout)
        print(f"FAILED {test.__module__}.{test.__name__}")
        return False
    return True


def main():
    began = time.monotonic()
    account = Account()
    results = [run_test(test, account) for part in PARTS for test in part.TESTS]
    for name, count in account.counts.items():
        print(f"{count:7} {name}")
    for name in account.empty():
        print(f"FAILED nothing exercised: {name}")
    failed = results.count(False) + len(account.empty())
    print(f"self test: {results.count(True)} tests held, {failed} failed, "
          f"{time.monotonic() - began:.0f} s")
    return 1 if failed else 0


if __name__ == "__main__":
    sys.exit(main())
