"""The best of several measurements, which other work of the machine disturbs least."""

from __future__ import annotations

import math
from collections.abc import Callable


def best_of(times: int, measure: Callable[[], float], enough: float = math.inf) -> float:
    """Measures that many times, or until it takes more than `enough`, and returns the least."""
    least = math.inf
    for _ in range(times):
        least = min(least, measure())
        if least > enough:
            break
    return least
