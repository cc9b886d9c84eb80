"""What the scripts of several folders share.

A script adds this folder to `sys.path` with one line, and then imports a module by its name: `from peer import Peer`. Imported as
the package `lib`, the folder adds itself, so that its modules find one another by the same names.
"""

import os
import sys

if (own := os.path.dirname(os.path.abspath(__file__))) not in sys.path:
    sys.path.append(own)
