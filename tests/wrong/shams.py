#!/usr/bin/env python3
"""shams.py [--gate] [CRATE..]: whether the prover refuses every wrong program for a fact, and accepts its twin.

Tries the wrong programs of these crates, or of all, those of the gate among them, and the twin of each that has one; see
tests/wrong/edits.py. With --gate, only the twins of those that the gate itself tries.

Those of a crate are tried one after the other in a copy of the repository, over what is already proved there of the unchanged
crate, so that only what an edit changes is checked again. Writes for each what the prover objects to, and how many came out as
they should not. The status is 0 only for none.
"""
import collections
import concurrent.futures
import os
import pathlib
import re
import shutil
import subprocess
import sys
import tempfile
import time

from edits import ROOT, all_edits

# a line in which the prover objects: an error, mostly with its place before it, or that a function has no proof
OBJECTION = re.compile(r"(\S+:\d+:\d+: )?error(\[[\w-]+\])?: |fn \S+: no proof: ")
# It has come to a fact only where it refuses a proof, of a goal or a theorem and under its name, or finds none for a goal; and not in
# the text of a contract, a definition or an invariant,
FACT = re.compile(r"(?:\./)?proofs/(?!\S*Invariants\.antt)\S+ error: `[^`]+`: "
                  r"|fn \S+: no proof: expected answers in \S+; `search` did not prove `")
# nor for a name, or a step of the walk or a part of a proof, that is not there.
BY_NAME = re.compile(r"is not in scope|can be named from here|has no field|has no `|already a name|is applied to an argument")
# And some of it only says that something that it needs was refused before:
FOLLOWS = re.compile(r"was (?:not admitted|rejected)|which (?:is|are) not proved"
                     r"|the borrow checker's part in its proof is not made yet: a call of")
# so a function too of which no goal is named, but only where the file of a lemma that its attribute names was refused.
NO_GOAL = re.compile(r"fn (?:\w+::)+(\w+): no proof: expected answers in \S+$")
REFUSED_LEMMAS = re.compile(r"^(?:\./)?proofs/([A-Z]\w*)\.antt\S* error: `", re.M)
ATTRIBUTE = re.compile(r"#\[tactic\((.*)\)\]\n(?: *#\[.*\]\n)* *(?:pub )?(?:extern \"C\" )?fn (\w+)")


def run(folder, *words):
    return subprocess.run(words, cwd=folder, stdout=subprocess.PIPE, stderr=subprocess.STDOUT, text=True)


def restore(copy, crate):
    """the crate as it is, in a copy of the repository"""
    for part in ("src", "specs", "proofs"):
        shutil.rmtree(copy / "crates" / crate / part, ignore_errors=True)
        if (ROOT / "crates" / crate / part).is_dir():
            shutil.copytree(ROOT / "crates" / crate / part, copy / "crates" / crate / part)


def prepared(copy):
    """a copy of the repository, without what was made of it"""
    shutil.copytree(ROOT / "crates", copy / "crates", ignore=shutil.ignore_patterns("out"))
    for file in ("crates.txt", "HANDLES"):
        if (ROOT / file).is_file():
            shutil.copy(ROOT / file, copy)


def verdict(said):
    """the last line of a check of its crate; those of the libraries below it come first"""
    lines = [line for line in said.splitlines() if line.startswith("logic=")]
    return lines[-1].split()[0] if lines else ""


def is_for_a_fact(objection):
    return bool(FACT.match(objection)) and not BY_NAME.search(objection)


def only_follows(line, said, crate):
    """whether an objection only says that something that a function needs was refused before"""
    unproved = NO_GOAL.match(line)
    if not unproved:
        return bool(FOLLOWS.search(line))
    source = "".join(file.read_text() for file in (ROOT / "crates" / crate / "src").glob("**/*.rt"))
    named = [attribute for attribute, name in ATTRIBUTE.findall(source) if name == unproved[1]]
    return any(f"::proofs::{file}::" in attribute for file in REFUSED_LEMMAS.findall(said) for attribute in named)


def objections(said, crate):
    """what the prover does not accept, without what only follows from that: first what is for no fact, then what is left at the end
    of a function"""
    found = [line for line in said.splitlines() if OBJECTION.match(line) and not only_follows(line, said, crate)]
    return sorted(found, key=lambda line: (is_for_a_fact(line), not re.search(r"(?:error:|did not prove) `returns", line)))


def trouble(edit, is_twin, prover):
    """how the program came out as it should not, if it did"""
    said = verdict(prover.stdout)
    if is_twin:
        return "" if prover.returncode == 0 and said == "logic=proved" else "NOT ACCEPTED"
    if prover.returncode != 1 or said == "logic=proved":
        return f"NOT REFUSED, status {prover.returncode}"
    found = objections(prover.stdout, edit.crate)
    if not found or said != "logic=not-proved" or not all(map(is_for_a_fact, found)):
        return "REFUSED FOR A NAME"
    unproved = [name for name in edit.helpers() if f"fn {edit.crate}::{name}: proved" not in prover.stdout]
    return f"REFUSED FOR ITS HELPER {unproved[0]}" if unproved else ""


def tried(copy, edit, is_twin):
    """tries a program, says how it came out, and gives whether that is as it should not"""
    began = time.time()
    folder = copy / "crates" / edit.crate
    for file, text in edit.files(ROOT / "crates" / edit.crate, is_twin).items():
        (folder / file).write_text(text)
    prover = run(folder, "rt", "check")
    restore(copy, edit.crate)
    fault = trouble(edit, is_twin, prover)
    said = "".join(objections(prover.stdout, edit.crate)[:1])[:240]
    came_out = fault or ("accepted" if is_twin else "refused")
    took = f"{time.time() - began:.0f} s"
    print(f"{edit}{', twin' * is_twin}: {came_out} ({took}) {said}".rstrip(), flush=True)
    return bool(fault)


def tried_all(copy, crate, jobs):
    """the edits of a crate, in a new folder: how many came out as they should not"""
    prepared(copy)
    unchanged = run(copy / "crates" / crate, "rt", "check")
    if unchanged.returncode:
        print(f"{crate}: not proved as it is\n{unchanged.stdout}", flush=True)
        return len(jobs)
    wrong = sum(tried(copy, edit, is_twin) for edit, is_twin in jobs)
    shutil.rmtree(copy)
    return wrong


def chosen(words):
    """what is to be tried: for each crate its edits, each as it is or as its twin"""
    is_gate = words[:1] == ["--gate"]
    wanted = words[is_gate:]
    jobs, twins = collections.defaultdict(list), set()
    for edit in all_edits():
        if wanted and edit.crate not in wanted:
            continue
        if not is_gate:
            jobs[edit.crate].append((edit, False))
        if edit.has_twin() and (edit.is_of_the_gate or not is_gate) and edit.twin() not in twins:
            twins.add(edit.twin())   # two edits may have one twin
            jobs[edit.crate].append((edit, True))
    if not jobs or set(wanted) - set(jobs):
        sys.exit(f"shams: nothing to try for one of: {' '.join(words)}")
    return jobs


def main():
    jobs = chosen(sys.argv[1:])
    # (not below the repository, where `rt` takes no other copy of a crate)
    with tempfile.TemporaryDirectory(prefix="shams-") as folder:
        return tried_in(pathlib.Path(folder), jobs)


def tried_in(work, jobs):
    """tries them all in a folder, and gives the status"""
    log = work / "check.log"
    for crate in jobs:
        words = ["sh", ROOT / "tools" / "watch.sh", f"shams: {crate} as it is", log, "rt", "check"]
        if subprocess.run(words, cwd=ROOT / "crates" / crate).returncode:
            sys.exit(log.read_text())
    longest_first = sorted(jobs, key=lambda crate: -len(jobs[crate]))
    with concurrent.futures.ThreadPoolExecutor(int(os.environ.get("RT_JOBS") or min(os.cpu_count() or 1, 4))) as pool:
        wrong = sum(pool.map(lambda crate: tried_all(work / crate, crate, jobs[crate]), longest_first))
    twins = sum(is_twin for tries in jobs.values() for _, is_twin in tries)
    count = sum(map(len, jobs.values())) - twins
    print(f"shams: {count} wrong programs and {twins} twins, {wrong} that came out as they should not")
    return 1 if wrong else 0


if __name__ == "__main__":
    sys.exit(main())
