#!/usr/bin/env python3
"""vectors.py [--check]: makes crates/vectors/stdin and stdout, the lines of the program `vectors` and what it must write.

The lines are those of tests/published.txt, which says how it is to be read, and after them those of tests/lockstep/edges.txt. What
must be written is what the papers print, and for the edges what the second program answers (target/native/second, which
tools/build-c.sh builds). With --check nothing is written: the lines must be these, what must be written must begin with what the papers
print, and the message that crate `published` computes must be the printed one. (That the rest is what the second program answers is
for tests/lockstep/programs.sh to ask.)
"""
import pathlib
import re
import subprocess
import sys

ROOT = pathlib.Path(__file__).resolve().parents[1]
PUBLISHED, EDGES = ROOT / "tests/published.txt", ROOT / "tests/lockstep/edges.txt"
STDIN, STDOUT = ROOT / "crates/vectors/stdin", ROOT / "crates/vectors/stdout"
COMPUTED = ROOT / "crates/published/specs/Published.antt"


def rows(*values):
    """bytes as the program writes them, 16 a line"""
    return [value[i:i + 32] for value in values for i in range(0, len(value), 32)]


def room(byte, *values):
    """lent buffers for what comes out, each of other bytes"""
    return [f"{byte + i:02x}" * (len(value) // 2) for i, value in enumerate(values)]


def line(letter, *operands):
    return f"{letter} {' / '.join(operands)}"


def on_blocks(letter):
    return lambda numbers, given, out: [(line(letter, *given, *[f"{n:02x}" for n in numbers]), rows(*out))]


def on_buffers(letter):
    return lambda numbers, given, out: [(line(letter, *given, *room(0xA1, *out)), ["00"] + rows(*out))]


def both(*ways):
    return lambda *operands: [case for way in ways for case in way(*operands)]


def cmac(numbers, given, out):
    """The message in whole blocks, once with each filling that must not count."""
    key, message = given
    size = 32 * max(1, -(-numbers[0] // 128))
    texts = dict.fromkeys([message.ljust(size, "0"), message.ljust(size, "f")])
    return [(line("M", key, f"{numbers[0]:04x}", text, *room(0xA1, *out)), ["00"] + rows(*out)) for text in texts]


def writer(letter):
    def way(numbers, given, out):
        target, authority, counter, flags = (*numbers, 0)[:4]
        uid, authkey, key = given
        slots, counted = [f"{target:02x}", f"{authority:02x}"], [f"{counter:08x}", f"{flags:02x}"]
        return [(line(letter, uid, *slots, authkey, *counted, key, *room(0xA1, *out)), ["00"] + rows(*out))]

    return way


def proof(numbers, given, out):
    target, authority, counter = numbers
    uid, key = given
    operands = [uid, f"{target:02x}", f"{authority:02x}", f"{counter:08x}", key]
    return [(line("A", *operands, *room(0xA4, *out)), ["00"] + rows(*out))]


# How the program is asked for each routine: as the core has it on blocks, or on lent buffers, or both.
WAYS = {
    "expand_key": on_blocks("K"),
    "subkeys": on_blocks("S"),
    "derive": on_blocks("N"),
    "extend": on_blocks("X"),
    "open": on_blocks("O"),
    "aes_encrypt": both(on_blocks("E"), on_buffers("e")),
    "aes_decrypt": both(on_blocks("D"), on_buffers("d")),
    "cbc_encrypt": on_buffers("C"),
    "cbc_decrypt": on_buffers("c"),
    "compress": on_buffers("H"),
    "kdf": on_buffers("F"),
    "cmac": cmac,
    "write_key": writer("W"),
    "write_key_short": writer("w"),
    "write_proof": proof,
}


class Published:
    """The values of the file, which the last of a name gives, and its lines for the program by their headings."""

    def __init__(self, text, exported):
        self.values, self.groups, self.exported = {}, [], exported
        for number, words in enumerate(map(str.strip, text.split("\n")), 1):
            if words.startswith("["):
                self.groups.append((words.strip("[]"), []))
            elif words and not words.startswith("#"):
                self.read(words.split(), f"line {number}")

    def value(self, word):
        return word if re.fullmatch("([0-9a-f]{2})+", word) else self.values[word]

    def read(self, words, where):
        if words[1:2] == ["="]:
            self.values[words[0]] = "".join(self.value(word) for word in words[2:])
        elif words[0] in WAYS:
            given, _, out = " ".join(words[1:]).partition(" > ")
            numbers = [int(word) for word in given.split() if word.isdigit()]
            values = [self.value(word) for word in given.split() if not word.isdigit()]
            self.groups[-1][1].extend(WAYS[words[0]](numbers, values, [self.value(word) for word in out.split()]))
        elif words[0] not in self.exported:
            sys.exit(f"published.txt, {where}: no routine {words[0]}")

    def lines(self):
        return [text for heading, cases in self.groups if cases for text in [f"# {heading}"] + [asked for asked, _ in cases]]

    def answers(self):
        return [text for heading, cases in self.groups if cases for text in [f"# {heading}"] + [r for _, out in cases for r in out]]


def computed():
    """the values that crate `published` computes, by their names"""
    found = re.findall(r"^(\w+) =\s+(0x[^[]*)\[\]", COMPUTED.read_text(), re.M)
    return {name.upper(): "".join(re.findall(r"0x(..)", value)) for name, value in found}


def main():
    headers = "".join(header.read_text() for header in sorted((ROOT / "include").glob("*.h")))
    exported = {"holds", "let", *re.findall(r"^uint8_t (?:she_)?(\w+)\(", headers, re.M)}
    published = Published(PUBLISHED.read_text(), exported)
    lines = "\n".join(published.lines()) + "\n" + EDGES.read_text()
    printed = "\n".join(published.answers()) + "\n"
    if sys.argv[1:] != ["--check"]:
        STDIN.write_text(lines)
        second = subprocess.run([ROOT / "target/native/second", "vectors"], input=lines, stdout=subprocess.PIPE, text=True, check=True)
        STDOUT.write_text(second.stdout)
    faults = []
    if STDIN.read_text() != lines:
        faults.append("crates/vectors/stdin is not what tools/vectors.py makes of the published vectors and the edges")
    if not STDOUT.read_text().startswith(printed):
        faults.append("crates/vectors/stdout does not begin with what the papers print")
    for name in ("K1", "K2", "M1", "M2", "M3", "M4", "M5"):
        if computed().get(name) != published.values.get(name):
            faults.append(f"{name} of crate `published` is not the printed one")
    for fault in faults:
        print(f"vectors: {fault}")
    print(f"vectors: {len(published.lines())} lines of published vectors, {len(EDGES.read_text().splitlines())} of edges")
    sys.exit(1 if faults else 0)


if __name__ == "__main__":
    main()
