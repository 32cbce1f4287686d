#!/usr/bin/env python3
"""faults.py [WORD]: whether the tests of the foreman's command can fail.

Each fault of tests/garage/faults.txt is put into a copy of the command, and the test that its name ends with must see it there, after
the copy without a fault was taken for right. Writes for each fault what was seen, and how many were not; the status is 0 only for
none. With a WORD only the faults are tried whose name has it.

How a fault is written stands in tests/wrong/edits.py.
"""
import pathlib
import re
import shutil
import subprocess
import sys
import tempfile

ROOT = pathlib.Path(__file__).resolve().parents[2]
sys.path.append(str(ROOT / "tests" / "wrong"))
from edits import COMMAND_FAULTS, read_faults, replaced  # noqa: E402

NEEDED = ("garage", "include", "tools", "tests", "demo", "README.md", "crates", "crates.txt")


def copy_of(place):
    """the command with its tests, over the libraries that there are"""
    for name in NEEDED:
        whole = shutil.copytree if (ROOT / name).is_dir() else shutil.copy2
        whole(ROOT / name, place / name)
    (place / "target" / "native").mkdir(parents=True)
    for made in ("libshe.a", "libgarage.a", "she.began", "garage.began"):
        shutil.copy(ROOT / "target" / "native" / made, place / "target" / "native")


def tested(place, *tests):
    return subprocess.run(["sh", "tests/garage/all.sh", *tests], cwd=place, capture_output=True, text=True).stdout


def main():
    faults = [fault for fault in read_faults(COMMAND_FAULTS) if "".join(sys.argv[1:]) in fault[0]]
    for library in ("she", "garage"):
        if subprocess.run(["sh", "tools/native-archive.sh", library], cwd=ROOT).returncode:
            return 1
    missed = 0
    with tempfile.TemporaryDirectory() as folder:
        place = pathlib.Path(folder)
        copy_of(place)
        tests = sorted({re.search(r"\[(\w+)\]$", name)[1] for name, *_ in faults})
        without = tested(place, *tests)
        if f" {len(tests) + 1} passed, 0 failed" not in without:
            print(f"the tests fail without a fault:\n{without}")
            return 1
        for name, file, old, new in faults:
            test = re.search(r"\[(\w+)\]$", name)[1]
            source = place / "garage" / file
            right = source.read_text()
            source.write_text(replaced(right, old, new, file))
            said = tested(place, test)
            source.write_text(right)
            is_seen = f"FAILED: {test}\n" in said and "FAILED: build" not in said
            missed += not is_seen
            where = re.search(rf"FAILED: {test}\n(?:FAILED: \w+: )?(.*)", said)
            print(f"{name}: {where[1][:150] if is_seen else 'not seen: ' + said[:1500]}", flush=True)
    print(f"{len(faults)} faults of the command, {missed} not seen")
    return 1 if missed else 0


if __name__ == "__main__":
    sys.exit(main())
