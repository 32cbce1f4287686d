#!/usr/bin/env python3
"""faults.py [SEED] [SEQUENCES] [WORD]: whether the comparison of the libraries with the second program can fail.

Each fault of tests/wrong/faults.txt is put into a copy of the second program, and that copy stands in the place of the libraries.
The random sequences must see the difference, and none where the copy has no fault. Writes for each fault where it was seen, and how
many were not; the status is 0 only for none. With a WORD only the faults are tried whose name has it: `faults.py 1 4500 book:`.

How a fault is written stands in tests/wrong/edits.py.
"""
import os
import pathlib
import re
import shutil
import subprocess
import sys
import tempfile

from edits import LIBRARY_FAULTS, ROOT, read_faults, replaced

NATIVE = ROOT / "target" / "native"


def run(*words, **more):
    return subprocess.run([str(word) for word in words], capture_output=True, text=True, cwd=ROOT, **more)


def build_copy(place, fault=None):
    """the second program with a fault, or none, as a library with the names of ours; gives what went wrong"""
    shutil.copytree(ROOT / "tests" / "lockstep" / "second", place / "second")
    if fault:
        _, file, old, new = fault
        source = place / "second" / file
        source.write_text(replaced(source.read_text(), old, new, file))
    exports = place / "second" / "c.rs"
    exports.write_text(exports.read_text().replace("fn second_garage_", "fn garage_").replace("fn second_", "fn she_"))
    # a shared library keeps its own copy of Rust's, beside that in the second program
    return run("rustc", "--edition", "2021", "-O", "-C", "panic=abort", "--crate-type", "cdylib", "--crate-name", "copy",
               place / "second" / "lib.rs", "--out-dir", place)


def build_comparison(place):
    """once for all copies: which of them it is run with is said when it is run"""
    sources = sorted((ROOT / "tests" / "lockstep").glob("*.c"))
    return run("gcc", "-std=c99", "-O2", "-Iinclude", *sources, NATIVE / "libsecond.a", f"-L{place}", "-lcopy", "-lpthread", "-ldl",
               "-lm", "-o", place / "lockstep")


def compare(comparison, place, seed, sequences):
    return run(comparison, "--some", seed, sequences, env={**os.environ, "LD_LIBRARY_PATH": str(place)})


def seen(fault, comparison, seed, sequences):
    """whether the comparison sees it, and where"""
    with tempfile.TemporaryDirectory() as folder:
        place = pathlib.Path(folder)
        made = build_copy(place, fault)
        if made.returncode:
            return False, f"does not build: {made.stderr[:300]}"
        ran = compare(comparison, place, seed, sequences)
        where = re.search(r"sequence (\d+), call (\d+)\n(.*)", ran.stdout)
        if ran.returncode == 1 and where:
            return True, f"sequence {where[1]}, call {where[2]}: {where[3]}"
        return False, f"not seen, status {ran.returncode}"


def try_all(faults, place, seed, sequences):
    """how many are not seen, or None where a copy without a fault is not taken for right"""
    for step in (build_copy, build_comparison):
        made = step(place)
        if made.returncode:
            print(made.stderr)
            return None
    if compare(place / "lockstep", place, seed, sequences).returncode:
        print("the comparison fails without a fault")
        return None
    missed = 0
    for fault in faults:
        is_seen, where = seen(fault, place / "lockstep", seed, sequences)
        missed += not is_seen
        print(f"{fault[0]}: {where}", flush=True)
    return missed


def main():
    seed, sequences, word = (sys.argv[1:] + ["1", "4500", ""][len(sys.argv) - 1:])[:3]
    if subprocess.run(["sh", "tools/build-c.sh"], cwd=ROOT).returncode:
        return 1
    faults = [fault for fault in read_faults(LIBRARY_FAULTS) if word in fault[0]]
    with tempfile.TemporaryDirectory() as folder:
        missed = try_all(faults, pathlib.Path(folder), seed, sequences)
    if missed is None:
        return 1
    print(f"{len(faults)} faults, {missed} not seen")
    return 1 if missed else 0


if __name__ == "__main__":
    sys.exit(main())
