"""Counts what passed and what failed, with a line for each, or for each that failed."""

from __future__ import annotations

import sys
from typing import NoReturn, Optional


class Results:
    """How many checks passed and failed so far."""

    def __init__(self, tells_passed: bool = True) -> None:
        self.passed = self.failed = 0
        self.tells_passed = tells_passed

    def tell(self, name: str, fault: Optional[str]) -> None:
        """Counts a check that passed, or that failed with a fault, and prints it."""
        self.passed += fault is None
        self.failed += fault is not None
        if fault is not None:
            print(f"failed: {name}: {fault}", flush=True)
        elif self.tells_passed:
            print(f"passed: {name}", flush=True)

    def end(self, more: str = "") -> NoReturn:
        """Prints the sums and `more`, and ends the program, with status 1 if a check failed."""
        print(f"{self.passed} passed, {self.failed} failed{more and f': {more}'}", flush=True)
        sys.exit(1 if self.failed else 0)
