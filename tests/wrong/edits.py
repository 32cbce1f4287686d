#!/usr/bin/env python3
"""edits.py: the wrong programs and the faults, and whether they still fit what they edit.

A wrong program is an edit of a crate that the prover must refuse, in crates/CRATE/must-fail/ where the gate tries it, and in
tests/wrong/CRATE/ where `make shams` does. Its lines:

    of: CRATE::ROUTINE   the routines, one or more, whose promise excludes it, or the file of the definition that it spoils
    why: a few words     what is wrong with it; docs/PROMISES.md has these words
    file: src/lib.rt     a file of the crate, for the texts after it
    old: text            stands there exactly once
    new: other text      and is replaced by this
    right: other text    or, in the edit's twin, by this

The twin of an edit is the same edit with a right body, which the prover must accept: so what is refused is the wrong body, and not
a helper that promises too little or a line of a proof that no longer fits. An edit that adds a function or changes a proof
has one. (`rt` passes over `of:`, `why:` and `right:`.)

A proof answers goals by their names, and a goal is named after the test or the call that it is about. So an edit leaves the tests
and calls of a function as they are named, or changes the names in the proof too.

Of the routines that take a record in place, two wrong programs each are made by tools/in_place.py and stand in no file.

A fault of tests/wrong/faults.txt is a name, a file of the second program, tests/lockstep/second/, and a text that stands there exactly
once and is replaced. Those of tests/garage/faults.txt are of the foreman's command, garage/, and the name ends with the test that must
see it.

    == name
    -- file
    text
    ++
    other text

Run by itself, it writes each edit that no longer fits the crates, each that lacks a twin or a reason, and each fault that no longer
fits its program. The status is 0 only where there is none.
"""
import pathlib
import re
import sys

ROOT = pathlib.Path(__file__).resolve().parents[2]
sys.path.append(str(ROOT / "tools"))
import in_place  # noqa: E402

GATE, SHAMS = "crates/*/must-fail/*.edit", "tests/wrong/*/*.edit"
# a list of faults, and the folder of the program that they are of
LIBRARY_FAULTS = ("tests/wrong/faults.txt", "tests/lockstep/second")
COMMAND_FAULTS = ("tests/garage/faults.txt", "garage")


class Stale(Exception):
    """A text that should stand in a file once does not."""


def replaced(text, old, new, where):
    if text.count(old) != 1:
        raise Stale(f"{where}: a text is there {text.count(old)} times: {old}")
    return text.replace(old, new)


def functions(text):
    return set(re.findall(r"\bfn (\w+)\(", text))


class Edit:
    def __init__(self, crate, name, is_of_the_gate=False):
        self.crate, self.name, self.is_of_the_gate = crate, name, is_of_the_gate
        self.of, self.why = [], ""
        self.changes = []   # (file, old, new, right), the last None where the twin has the new text too
        self.strange = []   # lines that mean nothing

    def where(self):
        return "gate" if self.is_of_the_gate else "shams"

    def __str__(self):
        return f"{self.crate}/{self.name}"

    def has_twin(self):
        return any(right is not None for *_, right in self.changes)

    def twin(self):
        """what tells one twin from another"""
        return self.crate, tuple((file, old, new if right is None else right) for file, old, new, right in self.changes)

    def helpers(self):
        """the functions that it adds"""
        return {name for _, old, new, _ in self.changes for name in functions(new) - functions(old)}

    def needs_twin(self):
        return bool(self.helpers()) or any(file.startswith("proofs/") for file, *_ in self.changes)

    def files(self, folder, is_twin=False):
        """what the crate in a folder has, edited: file -> its text"""
        texts = {}
        for file, old, new, right in self.changes:
            if not (folder / file).is_file():
                raise Stale(f"{self}: there is no file {file}")
            text = texts.get(file) or (folder / file).read_text()
            texts[file] = replaced(text, old, right if is_twin and right is not None else new, f"{self}, {file}")
        return texts


def read_edit(path):
    is_of_the_gate = path.parent.name == "must-fail"
    folder = path.parents[1] if is_of_the_gate else path.parent
    edit = Edit(folder.name, path.stem, is_of_the_gate)
    file = old = None
    for line in path.read_text().splitlines():
        key, _, text = re.sub(r"^new:$", "new: ", line).partition(": ")
        if key == "of":
            edit.of = text.split()
        elif key == "why":
            edit.why = text
        elif key == "file":
            file = text
        elif key == "old":
            old = text
        elif key == "new":
            edit.changes.append((file, old, text, None))
        elif key == "right":
            edit.changes[-1] = (*edit.changes[-1][:3], text)
        elif line:
            edit.strange.append(line)
    return edit


def made_edits():
    """those of the routines that take a record in place"""
    for crate, routine, name, why, changes in in_place.wrong_programs():
        edit = Edit(crate, name)
        edit.of, edit.why = [f"{crate}::{routine}"], why
        edit.changes = [("src/lib.rt", *change) for change in changes]
        yield edit


def all_edits():
    return [read_edit(path) for pattern in (GATE, SHAMS) for path in sorted(ROOT.glob(pattern))] + list(made_edits())


def read_faults(list_of_faults):
    """name, file, text and other text of each"""
    for part in re.split(r"^== ", (ROOT / list_of_faults[0]).read_text(), flags=re.M)[1:]:
        name, file, change = part.split("\n", 2)
        old, new = re.split(r"^\+\+\n", change, maxsplit=1, flags=re.M)
        yield name, file.removeprefix("-- "), old.rstrip("\n"), new.rstrip("\n")


def troubles(edits):
    for edit in edits:
        for line in edit.strange:
            yield f"{edit} has a line that means nothing: {line}"
        if not edit.of or not edit.why:
            yield f"{edit} does not say whose it is, or why it is wrong"
        for is_twin in (False, True):
            try:
                edit.files(ROOT / "crates" / edit.crate, is_twin)
            except Stale as stale:
                yield str(stale)
        if edit.needs_twin() and not edit.has_twin():
            yield f"{edit} adds a function or changes a proof, and has no twin"
        if any(right is not None and functions(right) != functions(new) for *_, new, right in edit.changes):
            yield f"the twin of {edit} has other functions"
    for faults in (LIBRARY_FAULTS, COMMAND_FAULTS):
        for name, file, old, _ in read_faults(faults):
            try:
                replaced((ROOT / faults[1] / file).read_text(), old, "", f"the fault '{name}', {file}")
            except Stale as stale:
                yield str(stale)


def main():
    edits = all_edits()
    found = sorted(set(troubles(edits)))
    for trouble in found:
        print(f"edits: {trouble}")
    twins = sum(edit.has_twin() for edit in edits)
    count = sum(len(list(read_faults(faults))) for faults in (LIBRARY_FAULTS, COMMAND_FAULTS))
    print(f"edits: {len(edits)} wrong programs, {twins} with a twin, {count} faults, {len(found)} that do not fit")
    return 1 if found else 0


if __name__ == "__main__":
    sys.exit(main())
