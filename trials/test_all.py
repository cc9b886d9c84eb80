"""Runs each trial, and each check of the gate but the proofs, as a test of pytest: `pytest trials -k NAME -n 2 --program PATH`.

A test is a script with its words; {upsd} stands for the program. It fails with what the script said had failed. It is skipped where
it lacks a command, which the script itself would install, or a program. `conftest.py` says which are left out, and why.
"""

from __future__ import annotations

import os
import re
import shutil
import subprocess
import sys
from typing import Optional

import pytest

from conftest import HERE

SECONDS = 1800  # by which a test ends that isn't long
LAST = 25  # lines that are shown of one that failed
PLACES = {"orthanc": "/usr/sbin/Orthanc", "nginx": "/usr/sbin/nginx", "haproxy": "/usr/sbin/haproxy", "stunnel4": "/usr/bin/stunnel4"}
LONG, QUIET, ROOT, MACHINE, PROVED = (getattr(pytest.mark, it) for it in ("long", "quiet", "root", "machine", "proved"))


def trial(words: str, *marks: pytest.MarkDecorator, name: Optional[str] = None, needs: str = "") -> object:
    """Returns a test: the words of a script, its marks, its name if that is not the script's, and the commands that it needs."""
    own = re.match(r"\w+/(\w+)\.py", words)
    assert own
    return pytest.param(words, needs.split(), marks=marks, id=name or own[1])


CHECKS = [
    trial("check/names.py"), trial("check/names.py --self-test", name="names_themselves"),
    trial("check/rooms.py"), trial("check/rooms.py --self-test", name="rooms_themselves"),
    trial("check/sizes.py"), trial("check/sizes.py --self-test", name="sizes_themselves"),
    trial("check/facts.py"), trial("check/facts.py --self-test", name="facts_themselves"),
    trial("check/typed.py", needs="mypy"), trial("check/typed.py --self-test", name="typed_themselves", needs="mypy"),
    trial("check/rows.py {rows} --program {upsd} --readings {readings} --refusals {refusals}"),
    trial("check/vectors.py --program {upsd}"), trial("check/vectors.py --self-test --program {upsd}", name="vectors_themselves"),
    trial("check/histories.py {refusals}"), trial("check/histories.py {refusals} --self-test", name="histories_themselves"),
    trial("check/many.py {upsd}"), trial("check/sharing.py {upsd} --endings {endings}"),
    trial("check/failures.py {rows} --program {upsd} --refusals {refusals}", LONG),
]
STORES = [
    trial("check/store.py kills 5 --program {upsd}", name="store_kills"), trial("check/store.py settings --program {upsd}", name="store_settings"),
    trial("check/store.py compact 500 --program {upsd}", name="store_compact"),
    trial("check/store.py histories 50 --program {upsd}", name="store_histories"),
    trial("check/store.py cuts 200 --program {upsd}", name="store_cuts", needs="strace"),
    trial("check/store.py failing 2 --program {upsd}", name="store_failing", needs="strace"),
    trial("check/store.py later 100 --program {upsd}", LONG, name="store_later", needs="strace gcc"),
    trial("check/store.py full --program {upsd}", ROOT, name="store_full"),
    trial("check/store.py million 1000000 --program {upsd}", LONG, name="store_million"),
    trial("check/store.py cost --program {upsd}", QUIET, name="store_cost"),
]
TRIALS = [
    trial("trials/abuse.py {upsd}", LONG), trial("trials/addresses.py {upsd}", ROOT), trial("trials/audit.py {upsd}"),
    trial("trials/backup.py {upsd} --rounds 4"), trial("trials/check.py {upsd}"), trial("trials/client.py {upsd}"),
    trial("trials/board.py --program {upsd} --many 0", needs="chromium nginx openssl tidy nodejs"),
    trial("trials/connect.py {upsd}", needs="echoscu"), trial("trials/crowds.py {upsd}", LONG, QUIET), trial("trials/ending.py {upsd}"),
    trial("trials/faulty.py {upsd}"), trial("trials/fuzz.py {upsd} 1000"), trial("trials/fuzz_script.py {upsd} 500"),
    trial("trials/haproxy.py {upsd}", needs="haproxy stunnel4 openssl"), trial("trials/history.py {upsd}"),
    trial("trials/hospital.py {upsd} --orders 60", needs="orthanc storescu"), trial("trials/idle.py {upsd}", QUIET),
    trial("trials/limits.py {upsd}"), trial("trials/log.py {upsd}"), trial("trials/memory.py {upsd}", LONG),
    trial("trials/metrics.py {upsd}"), trial("trials/mutate.py {upsd} --minutes 1"), trial("trials/package.py --program {upsd}", ROOT, MACHINE),
    trial("trials/performers.py --steps 60 --program {upsd}"), trial("trials/pool.py {upsd}", QUIET),
    trial("trials/recipes.py {upsd}", needs="orthanc storescu"), trial("trials/retired.py {upsd}", LONG),
    trial("trials/sources.py {upsd}"), trial("trials/standard_error.py {upsd}", QUIET), trial("trials/standby.py all --program {upsd}", ROOT, MACHINE),
    trial("trials/stock.py {upsd}", needs="echoscu findscu"), trial("trials/stunnel.py {upsd}", needs="stunnel4 openssl"),
    trial("trials/supervised.py {upsd}"), trial("trials/ten_minutes.py {upsd}", needs="faketime"),
    trial("trials/tour.py --program {upsd}"), trial("trials/tour.py", PROVED, name="tour_proved"),
    trial("trials/watchers.py {upsd}", LONG, QUIET), trial("trials/years.py {upsd}", LONG),
]
ROWS = ["examples", *sorted(f"rows/{it}" for it in os.listdir(os.path.join(HERE, "rows")) if it.endswith(".rows"))]


@pytest.mark.parametrize("words, needs", [*CHECKS, *STORES, *TRIALS])
def test(words: str, needs: list[str], programs: dict[str, str], request: pytest.FixtureRequest) -> None:
    for name in re.findall(r"\{(\w+)\}", words):
        if name != "rows" and not os.path.exists(programs[name]):
            pytest.skip(f"there is no {programs[name]}: `rt run` in crates/{name} builds it")
    if missing := [it for it in needs if not shutil.which(PLACES.get(it, it))]:
        pytest.skip(f"{', '.join(missing)} is missing, which {words.split()[0]} itself would install")
    is_long = any(request.node.get_closest_marker(it) for it in ("long", "machine", "proved"))
    ran = subprocess.run([sys.executable, *words.format(**programs, rows=" ".join(ROWS)).split()], cwd=HERE, stdin=subprocess.DEVNULL,
                         stdout=subprocess.PIPE, stderr=subprocess.STDOUT, text=True, timeout=None if is_long else SECONDS)
    if ran.returncode:
        lines = ran.stdout.splitlines()
        failed = [it for it in lines if it.startswith("failed")]
        others = [it for it in lines[-LAST:] if it not in failed]
        pytest.fail("\n".join([f"{words}: status {ran.returncode}", *failed, *others]), pytrace=False)
