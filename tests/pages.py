#!/usr/bin/env python3
"""pages.py [--write]: holds the pages to the files, and makes what of them can be made.

Of every function that another crate or C can call: it has a row in the table of promises, its contract has no `requires`, the
definition that its contract equates the outcome with is the one that the row names, in the file that the row names, the law is
that of the contract's shape, and there are at least two wrong programs. Every theorem that a table names is in its file. Each row of
the table of accounts in crate `demands` is what the routine of that call promises to perform, by value and in place, word for word
and with the arguments in their order, so that a theorem about the calls is one about the code, and about all of it.
Each header of include/ declares what the crate of its name exports, and nothing else. README.md and ARCHITECTURE.md name every crate, and
tests/README.md every file that tests something.

Made of the files are, in docs/PROMISES.md, the wrong programs of each routine and of the definitions, from what each says of itself
(tests/wrong/edits.py). With --write the page is written so; without, it must be so already.

Writes each fault that it finds, and how much it looked at. The status is 0 only where there is no fault.
"""
import pathlib
import re
import sys

sys.path.append(str(pathlib.Path(__file__).parent / "wrong"))
from edits import ROOT, all_edits

CRATES = ROOT / "crates"
faults = []


def check(fine, fault):
    if not fine:
        faults.append(fault)


def public_routines():
    """(crate, name) -> its signature and contract, which stand before the body; a method's name has its type's before it, and what a
    conversion gives is its contract"""
    found = {}
    item = (r'^impl(?:<[^>]*>)? (?:[\w<>]+ for )?(?P<type>\w+)|^(?P<end>\})|^ *pub (?:extern "C" )?fn (?P<name>\w+)'
            r"|^ *ghost (?P<conversion>from)_gives")
    for source in sorted(CRATES.glob("*/src/**/*.rt")):
        text, of = source.read_text(), ""
        for start in re.finditer(item, text, re.M):
            name = start["name"] or start["conversion"]
            if name:
                found[source.relative_to(CRATES).parts[0], of + name] = re.split(r"\n *\{| \{\n", text[start.end():], maxsplit=1)[0]
            else:
                of = start["type"] + "::" if start["type"] else ""
    return found


def cells(line):
    return [cell.strip() for cell in re.split(r"(?<!\\)\|", line)[1:-1]]


def tables(page):
    """every table of a page: its heading's cells, and the cells of each row"""
    found, lines = [], page.read_text().split("\n")
    for before, line in zip([""] + lines, lines):
        if not line.startswith("|"):
            continue
        if not before.startswith("|"):
            found.append((cells(line), []))
        elif not re.fullmatch(r"[|\-]+", line):
            found[-1][1].append(cells(line))
    return found


def rows_under(page, first_heading):
    return [row for heading, rows in tables(page) if heading[0] == first_heading for row in rows]


def quoted(cell):
    return re.findall(r"`([^`]+)`", cell)


def declared(path, name):
    """a definition, a theorem or a field `name` in a file under crates/"""
    file = CRATES / path
    line = rf"^\s*(?:abbrev |unfoldable )?(?:pub )?(?:record |data )?{re.escape(name)}(?: [({{].*)? :"
    return file.is_file() and re.search(line, file.read_text(), re.M) is not None


def places(cell, what):
    """the names of a cell, and the files after them, which hold them together"""
    names = [word for word in quoted(cell) if not word.endswith(".antt")]
    files = [word for word in quoted(cell) if word.endswith(".antt")]
    for name in names:
        check(any(declared(file, name) for file in files), f"{what}: no `{name}` in {', '.join(files) or 'no file'}")
    return names


def law_of(head):
    """the law that two outcomes which meet the promise are equal, by the shape of the promise"""
    if "{ opened_as " in head:
        return "opened_settled"
    for shape in ("outcome", "judged", "messages", "proof"):
        if f"{{ {shape} " in head:
            return f"{shape}_settled"
    if ".answer }" in head and ".output }" in head:
        return "buffer_settled"
    return "settled"


def told(edit, crate):
    """a wrong program in the words of its row, which is about this crate"""
    other = f" of `{edit.crate}`" * (edit.crate != crate)
    return f"{edit.why} ({edit.where()} `{edit.name}`{other})"


def routine_of(cell):
    """the crate and the name of the routine that a row is about"""
    crate, _, name = quoted(cell)[0].partition("(")[0].partition("::")
    return (crate, name) if name else ("bench", crate)


def with_wrong_programs(page, edits):
    """the page on promises, with the wrong programs as they are"""
    lines, heading = [], None
    spoiled = [edit for edit in edits if ".antt" in edit.of[0]]
    for before, line in zip([""] + page.split("\n"), page.split("\n")):
        heading = cells(line)[0] if line.startswith("|") and not before.startswith("|") else heading
        if heading == "spoiled definition" and line.startswith("| `"):
            continue
        if heading == "routine" and line.startswith("| `"):
            crate, name = routine_of(line)
            wrong = [told(edit, crate) for edit in edits if f"{crate}::{name}" in edit.of]
            line = " | ".join(line.split(" | ")[:4] + ["<br>".join(wrong)]) + " |"
        lines.append(line)
        if heading == "spoiled definition" and re.fullmatch(r"[|-]+", line):
            lines += [f"| `{edit.of[0]}` | {told(edit, edit.crate)} |" for edit in spoiled]
    return "\n".join(lines)


def hold_promises(routines, is_writing):
    page = ROOT / "docs" / "PROMISES.md"
    edits = all_edits()
    right = with_wrong_programs(page.read_text(), edits)
    if is_writing:
        page.write_text(right)
    check(page.read_text() == right, "PROMISES.md has other wrong programs than there are: `python3 tests/pages.py --write`")
    definitions, laws = {}, {}
    for routine, _, definition, law, _ in rows_under(page, "routine"):
        definitions[routine_of(routine)] = definition
        laws[routine_of(routine)] = quoted(law)
    for crate, name in routines:
        count = sum(f"{crate}::{name}" in edit.of for edit in edits)
        check(count > 1, f"{crate}::{name}: fewer than two wrong programs that its promise excludes")
    for edit in edits:
        for of in edit.of:
            known = (CRATES / of).is_file() if of.endswith(".antt") else tuple(of.split("::", 1)) in routines
            check(known, f"the wrong program {edit} is of {of}, which is not there")
    for (crate, name), head in routines.items():
        check((crate, name) in definitions, f"{crate}::{name} has no row in PROMISES.md")
        check("requires" not in head, f"{crate}::{name} has a precondition")
        promised = re.findall(r"≡ (?:perform )?\(?([^\s()]+)", head)
        check(promised, f"{crate}::{name} promises no equation")
        for lent in re.findall(r"(\w+): &mut ", head) + re.findall(r"&mut (self)", head):
            check(re.search(rf"(?<![\w.]){lent}\.new\b", head), f"{crate}::{name} promises nothing of what {lent} holds at exit")
        check(laws.get((crate, name)) == [law_of(head)], f"{crate}::{name} is settled by {law_of(head)}, and its row names another law")
        definition = definitions.get((crate, name), "")
        row = quoted(definition)[:1]
        check(promised[:1] == row, f"{crate}::{name} promises {promised[:1]}, and its row has {row}")
        if "kit's library" not in definition:
            places(definition, f"{crate}::{name}")
    for crate, name in definitions.keys() - routines.keys():
        check(False, f"PROMISES.md has a row for {crate}::{name}, which is not there")
    return len(edits)


# the tables of theorems: the page, the first heading, and the column of the names; the files stand in the last column
THEOREMS = (("PROMISES.md", "law", 0), ("PROMISES.md", "theorem", 0), ("DEMANDS.md", "words", 1), ("DEMANDS.md", "sham", 1),
            ("DEMANDS.md", "witness", 1))


def hold_theorems():
    count = 0
    for page, first_heading, names in THEOREMS:
        rows = rows_under(ROOT / "docs" / page, first_heading)
        check(rows, f"{page} has no table of '{first_heading}'")
        for row in rows:
            count += len(places(row[names] + " " + row[-1], f"{page}, {row[0]}"))
    return count


def parameters_of(head):
    """the parameters of a routine in their order: name -> type"""
    return dict(re.findall(r"(\w+): ([^,]+?),?\s*(?=\w+: |\)|$)", head[head.index("(") + 1:head.index(") ->")]))


def listed(parts):
    return "(" + " ∷ ".join([*parts, "[]"]) + ")" if parts else "[]"


def homes(text):
    """where a file takes its names from: name -> module"""
    found = {}
    for module, names in re.findall(r"^(?:ghost )?use ([^{\s]+)\.\{(.*)\};?$", text, re.M):
        found.update({name: module for name in names.split(", ")})
    found.update({f"{short}.": module for module, short in re.findall(r"^use (\S+) as (\w+)$", text, re.M)})
    return found


def contract_of(definition, parameters, is_in_place, returned):
    """what the routine of a call must promise: the outcome, with every lent buffer in its order, is what performing that account
    leaves, with the parameters in their order"""
    lent = [name for name, kind in parameters.items() if kind == "&mut [u8]"]
    through = [name for name, kind in parameters.items() if kind == "&mut u8"]
    given = [name if kind[0] != "&" else f"{name}.old" if kind.startswith("&mut") else f"{name}.now" for name, kind in parameters.items()
             if name != "device" and name not in through]
    value = {"bool": "(bool_byte (result_unwrap_or result false))", "u8": "(result_unwrap_or result 0)"}.get(returned, "0")
    if through:
        value = f"{through[0]}.new"
    after = "(result_unwrap_or result device)" if returned == "Device" else "device"
    answer, before = ("result device.new", "device.old") if is_in_place else (f"(answer_of result) {after}", "device")
    account = f"({' '.join([definition, *given])})" if given or " " in definition else definition
    return f"outcome {answer} {value} {listed([f'{name}.new' for name in lent])} ≡ perform {account} {before}"


def hold_calls(routines):
    """Row by row of the table of accounts: the constructor of the call, the routine of that name by value and the one in place, and
    the definition that the row names and both routines promise to perform, with the arguments in one order. Making alone is no
    call, and promises an outcome too."""
    text = (CRATES / "demands/specs/Calls.antt").read_text()
    declared = {}
    for name, given in re.findall(r"^  (\w+) : (.*)Call$", text, re.M):
        declared[name] = " ".join(re.findall(r"\(([^:]*) :", given)).split()
    rows = re.findall(r"^account n \(?(\w+)([^)=]*)\)? = (\w+\.)?(\w+)(.*)$", text, re.M)
    check([row[0] for row in rows] == list(declared), "the table of accounts has other calls than the type, or another order")
    named = {"commands": set(), "load": set(), "boot": set(), "she": set()}
    for call, pattern, short, definition, given in rows:
        counted = given.split()[:1] == ["n"]
        check(pattern.split() == declared[call] == given.split()[counted:], f"the account of {call} has its arguments in another order")
        places = [(crate, routine) for crate, routine in routines if routine in (call, "she_" + call) and crate in named]
        check([crate == "she" for crate, _ in places] == [False, True], f"{call} is not one routine by value and one in place: {places}")
        for crate, routine in places:
            named[crate].add(routine)
            head = routines[crate, routine]
            home = homes((CRATES / crate / "src" / "lib.rt").read_text()).get(definition)
            check(home == homes(text).get(short or definition), f"{crate}::{routine} has its {definition} from {home}, and {call} another")
            parameters = parameters_of(head)
            taken = [n for n, kind in parameters.items() if n != "device" and kind != "&mut u8"]
            # the type calls the room for M1 to M5 b1 to b5
            check(taken == [re.sub(r"^b(?=\d)", "m", n) for n in declared[call]], f"{crate}::{routine} takes other things than {call}")
            promise = [" ".join(clause.split()) for clause in re.findall(r"ensures \{ (.*?) \}$", head, re.S | re.M)]
            by_value = re.search(r"\) -> Result<(\S+), Refusal>", head)
            returned = by_value[1] if by_value else None
            wanted = contract_of(definition + " flag_count" * counted, parameters, crate == "she", returned)
            check(promise == [wanted], f"{crate}::{routine} promises {promise}, and by its call {wanted}")
    for crate, names in named.items():
        promising = {name for (c, name), head in routines.items() if c == crate and "{ outcome " in head}
        others = promising - names - {"make", "she_make"}
        check(not others, f"routines of {crate} promise an outcome and are no call: {others}")
    return len(rows)


def hold_headers(routines):
    """include/CRATE.h declares every routine that this crate exports to C, or the crate for C beside it, with as many parameters, and
    nothing else"""
    found = 0
    for header in sorted((ROOT / "include").glob("*.h")):
        crate = header.stem + "_c" * (CRATES / f"{header.stem}_c").is_dir()
        names = re.findall(r'^pub extern "C" fn (\w+)', (CRATES / crate / "src" / "lib.rt").read_text(), re.M)
        declared = dict(re.findall(r"^uint8_t (\w+)\(([^)]*)\);", header.read_text(), re.M))
        for name in declared.keys() ^ set(names):
            check(False, f"{name} is in one of {header.name} and crate {crate} only")
        for name in declared.keys() & set(names):
            parameters = routines[crate, name].partition(") -> u8")[0]
            # a slice is a pointer and a length
            count = len(re.findall(r": ", parameters)) + len(re.findall(r"\[u\d+\]", parameters))
            check(count == declared[name].count(",") + 1, f"{name} has another number of parameters in {header.name}")
        found += len(declared)
    return found


def hold_lists():
    """README.md and ARCHITECTURE.md name every crate, and tests/README.md every script of the tests, and none that is not there"""
    crates = set(re.findall(r"^(\w+)(?: staticlib)?:", (ROOT / "crates.txt").read_text(), re.M))
    for page in ("README.md", "docs/ARCHITECTURE.md"):
        named = {name for row in rows_under(ROOT / page, "crate") for name in quoted(row[0])}
        for crate in crates ^ named:
            check(False, f"{crate} is in one of crates.txt and {page}'s table of crates only")
    tests = ROOT / "tests"
    there = {str(file.relative_to(tests)) for file in tests.rglob("*") if file.suffix in (".sh", ".py", ".txt")}
    told_of = set(re.findall(r"`([\w/-]+\.(?:sh|py|txt))`", (tests / "README.md").read_text()))
    for file in there ^ told_of:
        check(False, f"{file} is in one of tests/ and tests/README.md only")


def main():
    routines = public_routines()
    check(len(routines) > 60, "fewer public routines than there are")
    edits = hold_promises(routines, sys.argv[1:] == ["--write"])
    hold_lists()
    theorems = hold_theorems()
    calls = hold_calls(routines)
    declared = hold_headers(routines)
    for fault in faults:
        print(f"pages: {fault}")
    looked = f"{len(routines)} routines, {edits} wrong programs, {theorems} names of theorems, {calls} calls, {declared} in headers"
    print(f"pages: {looked}, {len(faults)} faults")
    return 1 if faults else 0


if __name__ == "__main__":
    sys.exit(main())
