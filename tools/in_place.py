"""in_place.py: wrong programs of every routine that takes a record in place, for tests/wrong/edits.py.

The body of these routines is one call of a command that takes the record by value, and what is done with its reply; here with a
`Device`, or with the foreman's `Book`:

    store(device, COMMAND(*device, ..))             // a command that hands back the record as it is after it
    answer_of(COMMAND(*device, ..))                 // one that only reads the record
    *value = 0;                                     // one that gives a number beside its answer, or a yes or no by `.map(u8::from)`
    store(value, COMMAND(*device, ..))
    settle(book, COMMAND(*book, ..), verdict)       // one that gives a yes with the record after it, or a no
    store(device, COMMAND(..))                      // one that asks nothing of what the record held; or leaves it blank where it refuses,
    *book = Book::blank();                          // with this before it

with every other parameter in its order, a wide one as a byte, `to_byte(slot)`. So what their promises must exclude can be read off the source. This program finds the crates
that have such routines, and makes two wrong programs of each: a function in the place of the command that answers 0 and leaves all as it
was, and one that refuses all. The twin of both calls the command, under the routine's own promise. An export that only hands all on to a
routine of another crate gets the same, with a function in the place of that routine, which takes the record in place too.
"""
import pathlib
import re

CRATES = pathlib.Path(__file__).resolve().parents[1] / "crates"
HEAD = r'pub (?:extern "C" )?fn (?P<name>\w+)\(\s*(?P<record>\w+): &mut (?P<struct>[A-Z]\w*)'
# A routine's head and promise, and its body: what is written before the call, where what comes of the command goes, the command with
# what it is given, the conversion of a yes or no, and where that goes.
PROMISE = (r"(?P<head>(?:#\[unsafe\(no_mangle\)\]\n)?" + HEAD
           + r",?(?P<parameters>[^)]*)\) -> u8\s+ensures \{ (?P<promise>.*) \}\s+\{)\s+")
ROUTINE = re.compile(
    PROMISE + r"(?://.*\s+)*(?:(?P<before>\*\w+ = [^;]*;)\s+)?(?P<body>(?P<use>store|answer_of|settle)\(\s*(?:(?P<place>\w+),\s*)?"
    r"(?P<call>(?P<command>[\w:]+)\((?P<passed>(?:[^()]|\([^()]*\))*)\))(?P<conversion>\.map\(\s*u8::from,?\s*\))?,?\s*(?P<through>\w+)?,?\s*\))\s+\}")
HANDED_ON = re.compile(PROMISE + r"(?P<call>\w+::\w+\((?P<passed>[^()]*)\))\s+\}")


def listed(text):
    return [item.strip() for item in text.split(",") if item.strip()]


# where a promise of a function in the place of a command has its names from, for a crate whose own promises need fewer
HOMES = {"answer_of": "Rattle.basics.specs.Answers", "result_unwrap_or": "Rattle.std.specs.Result", "blank": "Rattle.garage.specs.Open",
         "bool_byte": "mir.Val", "false": "Rattle.std.specs.Prelude"}


class Routine:
    """One whose command takes the record by value."""

    def __init__(self, crate, imported, head, name, record, struct, parameters, promise, before, body, use, place, call, command, passed,
                 conversion, through):
        self.crate, self.imported, self.head, self.name = crate, imported, head, name
        self.record, self.struct, self.promise, self.body = record, struct, promise, body
        self.use, self.call, self.command, self.is_verdict, self.before = use, call, command, conversion is not None, before
        self.changes, self.is_blanked = place == record, before == f"*{record} = {struct}::blank();"
        # a parameter through which a number goes out
        self.value = through or (None if place in (record, None) else place)
        passed = listed(passed)
        self.is_anew = passed[:1] != [f"*{record}"]
        self.passed = passed if self.is_anew else passed[1:]
        # as the command takes them
        self.parameters = {parameter: "u8" if f"to_byte({parameter})" in self.passed else kind
                           for parameter, _, kind in (item.partition(": ") for item in listed(parameters)) if parameter != self.value}
        given = [re.sub(r"^to_byte\((\w+)\)$", r"\1", item) for item in self.passed]
        fine = given == [*self.parameters] and (before is None or self.is_blanked or before == f"*{self.value} = 0;")
        assert fine, f"{crate}::{name} passes something else on, or writes something else before"

    def given(self):
        """what the command hands back where it succeeds and leaves all as it was, its type, and what a refusal counts as"""
        if self.use == "settle":
            return "None", f"Option<{self.struct}>", None
        if self.changes:
            return self.record, self.struct, "blank" if self.is_blanked else self.record
        if self.is_verdict:
            return "false", "bool", "false"
        return ("0", "u8", "0") if self.value else ("()", "()", None)

    def said(self):
        """the routine's promise, of a function that takes the record by value"""
        left = f"(result_unwrap_or result {self.given()[2]})"
        if self.use == "settle":
            return f"judged {self.record} result ≡ " + self.promise.partition(" ≡ ")[2].replace(f"{self.record}.old", self.record)
        says = re.sub(r"(?<![\w.])result(?![\w.])", "(answer_of result)", self.promise)
        if self.value:
            says = says.replace(f"{self.value}.new", f"(bool_byte {left})" if self.is_verdict else left)
        says = says.replace(f"{self.record}.new", left if self.changes else self.record)
        return says.replace(f"{self.record}.old", self.record)

    def idle(self, answer):
        """the same, that this is answered and all left as it was, with 0 for a number that goes out"""
        left = re.sub(r"(?<![\w.])result(?![\w.])", str(answer), self.promise.partition(" ≡ ")[0])
        left = left.replace(f"{self.record}.new", "blank" if self.is_blanked and answer else self.record)
        for name in self.parameters:
            left = left.replace(f"{name}.new", f"{name}.old")
        left = left.replace(f"{self.value}.new", "0") if self.value else left
        return f"{self.said().partition(' ≡ ')[0]} ≡ {left}"

    def stand_in(self, promise, body):
        """a function in the place of the command, with the record before it and its parameters"""
        taken = "".join(f", {name}: {kind}" for name, kind in self.parameters.items())
        head = f"fn stand_in({self.record}: {self.struct}{taken}) -> Result<{self.given()[1]}, basics::Refusal>"
        uses = "".join(f"ghost use {home}.{{{name}}};\n" for name, home in HOMES.items()
                       if name not in self.imported and re.search(rf"\b{name}\b", promise))
        return f"{uses}{head} ensures {{ {promise} }} {{ {body} }}\n\n"

    def wrong_programs(self):
        """Crate, routine, name, reason, and the changes of the source: a text that stands there once, its wrong replacement and its
        right one."""
        record = "before" if self.is_blanked else f"*{self.record}"
        calls = [(self.body, self.body.replace(self.call, f"stand_in({', '.join([record, *self.passed])})"), None)]
        if self.is_blanked:
            calls.append((self.before, f"let before = *{self.record}; {self.before}", None))
        right = self.stand_in(self.said(), f"{self.command}({', '.join([*([] if self.is_anew else [self.record]), *self.parameters])})")
        for does, answer, body, why in (("only_answers", 0, f"Ok({self.given()[0]})", "answers 0 and leaves all as it was"),
                                        ("refuses_all", 12, "Err(basics::Refusal::GeneralError)", "refuses all")):
            put = (self.head, self.stand_in(self.idle(answer), body) + self.head, right + self.head)
            yield self.crate, self.name, f"{self.name}_{does}", why, [*calls, put]


class Export:
    """One that hands all on to a routine of another crate."""

    def __init__(self, crate, head, name, record, struct, parameters, promise, call, passed):
        self.crate, self.head, self.name, self.record, self.struct = crate, head, name, record, struct
        self.promise, self.call, self.passed = promise, call, passed
        self.parameters = dict(item.split(": ") for item in listed(parameters))
        assert listed(passed) == [record, *self.parameters], f"{crate}::{name} passes something else on"

    def stand_in(self, promise, body):
        """a function in the place of the routine, with its parameters"""
        taken = "".join(f", {name}: {kind}" for name, kind in self.parameters.items())
        return f"fn stand_in({self.record}: &mut {self.struct}{taken}) -> u8 ensures {{ {promise} }} {{ {body} }}\n\n"

    def idle(self, answer):
        """one that gives this answer and leaves all as it was, and a byte that goes out 0"""
        says = self.promise.partition(" ≡ ")[0]
        left = re.sub(r"(?<![\w.])result(?![\w.])", str(answer), says).replace(f"{self.record}.new", f"{self.record}.old")
        out = [name for name, kind in self.parameters.items() if kind == "&mut u8"]
        for name in self.parameters:
            left = left.replace(f"{name}.new", "0" if name in out else f"{name}.old")
        return self.stand_in(f"{says} ≡ {left}", "".join(f"*{name} = 0; " for name in out) + str(answer))

    def wrong_programs(self):
        """as those of a routine"""
        calls = (self.call, f"stand_in({self.passed})", None)
        right = self.stand_in(self.promise, self.call)
        for does, answer, why in (("only_answers", 0, "answers 0 and leaves all as it was"), ("refuses_all", 12, "refuses all")):
            yield self.crate, self.name, f"{self.name}_{does}", why, [calls, (self.head, self.idle(answer) + self.head, right + self.head)]


def wrong_programs():
    for folder in sorted(CRATES.glob("*/src")):
        crate = folder.parent.name
        text = "\n".join(file.read_text() for file in sorted(folder.glob("**/*.rt")))
        imported = {name for names in re.findall(r"^ghost use .*\{(.*)\};$", text, re.M) for name in names.split(", ")}
        found = [Routine(crate, imported, **parts.groupdict()) for parts in ROUTINE.finditer(text)]
        found += [Export(crate, **parts.groupdict()) for parts in HANDED_ON.finditer(text)]
        assert len(found) == len(re.findall(HEAD, text)), f"a routine of {crate} has another body"
        for routine in found:
            yield from routine.wrong_programs()
