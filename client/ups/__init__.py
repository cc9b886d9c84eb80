"""A client of a DICOM UPS manager: the command `ups`."""

import sys

NAME = "ups"
VERSION = "0.3.0"
UNKNOWN = 3  # the exit status of a monitoring plugin that can't tell


def is_plugin() -> bool:
    """Returns whether the command line is that of a monitoring plugin, whose exit statuses are others."""
    return "--nagios" in sys.argv or sys.argv[1:2] == ["health"]
