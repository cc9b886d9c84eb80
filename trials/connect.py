#!/usr/bin/env python3
"""Runs the snippets of docs/use/connect.md and examples/README.md that say `# tried`, and compares what they print.

    trials/connect.py [PROGRAM]      (crates/upsd/out/upsd, which `rt run` builds)

The blocks run in order, at the top of the repository, against one server that has just started, as on the pages but on free
ports: sh with `sh`, python with Debian's Python, which has pydicom and odil. What a block prints follows `# ->` in it. The script
installs what is missing (`apt-get install -y dcmtk python3-pydicom python3-odil`, which needs root), prints a line for each block,
and then `N passed, M failed`. The exit status is 1 if any failed.
"""

from __future__ import annotations

import os
import re
import subprocess
import sys
from typing import Optional

sys.path.insert(0, os.path.join(os.path.dirname(os.path.dirname(os.path.abspath(__file__))), "check/lib"))
from machine import HERE, described, free_port, install, source
from results import Results
from server import Server

PAGES = ("docs/use/connect.md", "examples/README.md")
SERVER, WATCHER = "11112", "11113"  # the ports of the page
SHELLS = {"sh": ["sh"], "python": ["/usr/bin/python3", "-"]}
SECONDS = 120  # for one block


def blocks(path: str) -> list[tuple[str, str, list[str]]]:
    """Returns the language, the words and the printed lines of each block of a page that says `# tried`."""
    found = re.findall(r"(?ms)^```(sh|python)\n# tried\n(.*?)^```$", source(path))
    lines = [(language, text.split("\n")) for language, text in found]
    return [(language, "\n".join(it for it in text if not it.startswith("# -> ")),
             [it[len("# -> "):] for it in text if it.startswith("# -> ")]) for language, text in lines]


def placed(words: str, server: int, watcher: int) -> str:
    """Returns the words of a block with these ports in place of the page's, and the client in a Python that has pydicom."""
    words = words.replace(SERVER, str(server)).replace(WATCHER, str(watcher))
    return re.sub(r"(?m)^client/bin/ups", "/usr/bin/python3 client/bin/ups", words)


def fault_of(language: str, words: str, wanted: list[str], ports: tuple[int, int]) -> Optional[str]:
    variables = {**os.environ, "UPS_SERVER": f"127.0.0.1:{ports[0]}", "PYTHONIOENCODING": "utf-8"}
    ran = subprocess.run(SHELLS[language], input=placed(words, *ports), cwd=HERE, capture_output=True, encoding="utf-8",
                         timeout=SECONDS, check=False, env=variables)
    printed = ran.stdout.replace(str(ports[0]), SERVER).replace(str(ports[1]), WATCHER).split("\n")[:-1]
    return None if printed == wanted else f"it prints {printed}, and not {wanted}: {ran.stderr[-300:]}"


def main() -> None:
    asked = described(__doc__, "?")
    given, results = asked.parse_args(), Results()
    odil = subprocess.run(["/usr/bin/python3", "-c", "import odil"], stderr=subprocess.DEVNULL, check=False).returncode
    install({"echoscu": "dcmtk", "python3": "python3-pydicom", **({"python3 with odil": "python3-odil"} if odil else {})})
    watcher = free_port()
    with Server([given.program], f"WATCH1=127.0.0.1:{watcher}") as server:
        for page in PAGES:
            found = blocks(page)
            for number, (language, words, wanted) in enumerate(found, 1):
                fault = fault_of(language, words, wanted, (server.port, watcher))
                results.tell(f"{page}, block {number}, {language}, {len(wanted)} lines", fault)
            results.tell(f"{page} has blocks", None if found else "it has none")
    results.end()


if __name__ == "__main__":
    main()
