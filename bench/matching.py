#!/usr/bin/env python3
"""Measures how long it takes to match one key with one stored value; prints a table.

The measured program asks a `Probe` and nothing else. It is not a crate of this repository: make one from its text
while you measure, on ups_pdu, ups_dataset and ups_match.

Usage: bench/matching.py --source       prints the text of the program
       bench/matching.py PROGRAM        measures it
"""

import subprocess
import sys
import time

from best import best_of

SOURCE = r'''//! Reads a representation, a key and a stored value, a line each, and prints whether the key matches the value.
#![tactic(auto)]

use std::alloc::{AllocError, Global};
use std::io::{self, Read};
use ups_dataset::dictionary::{PROCEDURE_STEP_LABEL, SOP_INSTANCE_UID};
use ups_dataset::{DataSet, Element, Tag, Vr};
use ups_match::{Keys, Matcher, Probe};
use ups_pdu::Bytes;

/// A set with one value, as a peer may write it under any tag: as unknown, and so also a long one.
fn set_of(alloc: Global, tag: Tag, value: &[u8]) -> Result<DataSet<Global>, AllocError> {
    let mut set = DataSet::new(alloc);
    if tag.is_mark() || tag.is_group_length() || value.len() % 2 != 0 || value.len() > 16_000_000 {
        return Ok(set);
    }
    let bytes = Bytes::copy_of(alloc, value)?;
    set.replace(Element::of_bytes(tag, Vr::Un, bytes))?;
    Ok(set)
}

/// Whether a key matches a value under a tag of a representation.
fn ask(alloc: Global, kind: &[u8], key: &[u8], value: &[u8]) -> Result<bool, AllocError> {
    let tag = match kind {
        b"UI" => SOP_INSTANCE_UID,
        _ => PROCEDURE_STEP_LABEL,
    };
    let keys = set_of(alloc, tag, key)?;
    let row = set_of(alloc, tag, value)?;
    let Ok(keys) = Keys::of(keys, 0) else {
        return Ok(false);
    };
    let mut probe = Probe::new();
    Ok(probe.matches(&keys, &row))
}

fn main(rt: HostRuntime) -> io::Result<()> {
    let mut input = rt.stdin();
    let mut all = Vec::new(rt.alloc());
    input.read_to_end(&mut all)?;
    let mut lines = all.as_slice().split(|byte| *byte == b'\n');
    let kind = lines.next().unwrap_or(b"");
    let key = lines.next().unwrap_or(b"");
    let value = lines.next().unwrap_or(b"");
    println!(rt; "{}", ask(rt.alloc(), kind, key, value)?)
}
'''

LIMIT = 120


def even(value):
    return value if len(value) % 2 == 0 else value + b" "


def run(program, stdin):
    """Returns the seconds of one run, which must not match."""
    began = time.perf_counter()
    done = subprocess.run([program], input=stdin, capture_output=True, timeout=LIMIT)
    if done.returncode != 0 or done.stdout != b"false\n":
        sys.exit(f"{program}: status {done.returncode}, {done.stderr}")
    return time.perf_counter() - began


def seconds(program, representation, key, value):
    """Returns the best time of three runs, or of one if it takes over 2 s; None if a run exceeds the limit."""
    stdin = b"\n".join((representation, even(key), even(value), b""))
    try:
        return best_of(3, lambda: run(program, stdin), enough=2)
    except subprocess.TimeoutExpired:
        return None


def uids(front, count):
    return b"\\".join(b"%s%d" % (front, 100_000 + i) for i in range(count))


# each shape: its representation, and its key and value of n bytes together
SHAPES = (
    ("`*A..AB*` and letters `A`", b"LO", lambda n: (b"*" + b"A" * (n // 3) + b"B*", b"A" * (2 * n // 3))),
    ("`*?A..AB*` and letters `A`", b"LO", lambda n: (b"*?" + b"A" * (n // 3) + b"B*", b"A" * (2 * n // 3))),
    ("`A..A` and empty values", b"LO", lambda n: (b"A" * (n // 2), b"\\" * (n // 2))),
    ("`*..*B` and values `A`", b"LO", lambda n: (b"*" * (n // 2) + b"B", b"A\\" * (n // 4))),
    ("`A*..*B` and values `AA`", b"LO", lambda n: (b"A" + b"*" * (n // 2) + b"B", b"AA\\" * (n // 6))),
    ("UIDs of 10 bytes, and others", b"UI", lambda n: (uids(b"1.2.", n // 22), uids(b"1.3.", n // 22))),
    ("UIDs of 1 byte, and others", b"UI", lambda n: (b"1\\" * (n // 4) + b"1", b"2\\" * (n // 4) + b"2")),
)


def main():
    if len(sys.argv) != 2 or sys.argv[1] in ("-h", "--help"):
        sys.exit(__doc__)
    if sys.argv[1] == "--source":
        print(SOURCE, end="")
        return
    program = sys.argv[1]
    print("| key and value | bytes | time |\n|---|---|---|")
    for name, representation, shape in SHAPES:
        for size in (10_000, 100_000, 1_000_000):
            took = seconds(program, representation, *shape(size))
            shown = f"over {LIMIT} s" if took is None else f"{took * 1000:,.0f} ms" if took < 1 else f"{took:.1f} s"
            print(f"| {name} | {size:,} | {shown} |", flush=True)


if __name__ == "__main__":
    main()
