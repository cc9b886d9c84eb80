"""Runs the client, where pydicom is there."""

import importlib.util
import sys

from ups import NAME, UNKNOWN, is_plugin


INTERRUPTED = 130  # the exit status that a shell has for SIGINT


def main() -> int:
    try:
        if importlib.util.find_spec("pydicom") is None:
            print(f"{NAME}: pydicom is missing for this Python: Debian has it for /usr/bin/python3 as python3-pydicom", file=sys.stderr)
            return UNKNOWN if is_plugin() else 2
        from ups.program import run
        return run()
    except KeyboardInterrupt:
        return INTERRUPTED


if __name__ == "__main__":
    sys.exit(main())
