#!/usr/bin/python3
"""Fetches the input of a step by C-GET, as the command of `ups work`.

    ups work --worklist ORTHANC --steps 0 --every 5 -- /usr/share/doc/ups/examples/fetch_study.py {} IN ORTHANC=127.0.0.1:4242

The words are the file with the step, a folder, in which each step gets a folder of its own, and where each title is that the step
names. It needs `getscu` of DCMTK (Debian: dcmtk). The exit status is 0 only if each instance that the step names has come: then
`ups work` completes the step, and otherwise it cancels it.
"""

from __future__ import annotations

import json
import os
import subprocess
import sys
from typing import Any

Json = dict[str, Any]


def values(item: Json, tag: str) -> list[Any]:
    return item.get(tag, {}).get("Value", [])


def value(item: Json, tag: str) -> Any:
    return (values(item, tag) or [""])[0]


def fetch(item: Json, folder: str, places: dict[str, str]) -> bool:
    """Fetches a series, or a study, of Input Information Sequence (0040,4021) into a folder. Returns whether all has come."""
    title = value((values(item, "0040E021") or [{}])[0], "00080054")
    if title not in places:
        sys.exit(f"fetch_study.py: where is {title!r}?")
    host, _, port = places[title].rpartition(":")
    series = value(item, "0020000E")
    keys = [f"0008,0052={'SERIES' if series else 'STUDY'}", f"0020,000D={value(item, '0020000D')}"]
    keys += [f"0020,000E={series}"] if series else []
    words = ["-aet", os.environ.get("UPS_AE", "CLIENT"), "-aec", title, *(word for key in keys for word in ("-k", key)), "-od", folder]
    ran = subprocess.run(["getscu", "-S", *words, host, port], check=False)
    wanted = {value(each, "00081155") for each in values(item, "00081199")}
    came = {name.partition(".")[2] for name in os.listdir(folder)}  # getscu names a file by modality and SOP Instance UID
    return ran.returncode == 0 and wanted <= came


def main() -> int:
    if len(sys.argv) < 4:
        sys.exit((__doc__ or "").strip())
    path, folder, *words = sys.argv[1:]
    with open(path, encoding="utf-8") as file:
        step = json.load(file)
    places = dict(word.split("=", 1) for word in words)
    own = os.path.join(folder, value(step, "00080018"))
    os.makedirs(own, exist_ok=True)
    fetched = [fetch(item, own, places) for item in values(step, "00404021")]
    return 0 if fetched and all(fetched) else 1


if __name__ == "__main__":
    sys.exit(main())
