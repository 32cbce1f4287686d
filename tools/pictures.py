#!/usr/bin/env python3
"""pictures.py [--check]: draws docs/pictures/layers.svg, messages.svg, checks.svg and bench.svg.

What the files of the project say is taken from them: the crates and who stands on whom from crates.txt, the checks of LOAD_KEY
with their order and answers, the flags and the widths of the messages from the definitions, the times from docs/PERFORMANCE.md.
The rest is words and places. Where these don't fit the files any more - a crate without a place, a function that is gone, a check
without words, a definition that reads otherwise - the program fails and says what it misses. With --check it writes nothing, and
fails where a picture is not what it would write.
"""
import html
import pathlib
import re
import sys

ROOT = pathlib.Path(__file__).resolve().parent.parent
WIDTH = 900
# Each colour in light and in dark. The accent has one meaning in each picture, which the picture says.
COLOURS = {"INK": ("#1f2328", "#e6edf3"), "MUTED": ("#59636e", "#9da7b3"), "LINE": ("#818b98", "#76808c"),
           "PANEL": ("#ffffff", "#0d1117"), "BAND": ("#f3f5f8", "#171d26"), "FILL": ("#c3cad3", "#4a535f"),
           "ACCENT": ("#0969da", "#58a6ff"), "TINT": ("#dcefff", "#10294a")}
SHEET = """text{font:13px sans-serif;fill:INK}.small{font-size:12px}.bold{font-weight:bold}.head{font-size:17px;font-weight:bold}
.mono{font:12px monospace}.name{font:bold 14px monospace}.muted{fill:MUTED}.on{fill:PANEL;font-weight:bold}
.panel{fill:PANEL}.band{fill:BAND;stroke:LINE}.box,.open{fill:PANEL;stroke:LINE}.fill{fill:FILL;stroke:LINE}
.tint{fill:TINT;stroke:ACCENT}.solid{fill:ACCENT;stroke:PANEL}.tip{fill:LINE}.waytip,.bit{fill:ACCENT}
.line,.dash,.way,.edge,.thin{fill:none;stroke:LINE;stroke-width:1.5}.way{stroke:ACCENT;stroke-width:2}
.edge{stroke:INK;stroke-width:3}.thin{stroke-width:1}.dash,.open{stroke-dasharray:5 3}"""
TIP = ('<marker id="{0}" viewBox="0 0 8 8" refX="7" refY="4" markerWidth="8" markerHeight="8" orient="auto"'
       ' markerUnits="userSpaceOnUse"><path class="{0}" d="M0 0.5L8 4L0 7.5z"/></marker>')


def fail(what):
    sys.exit(f"pictures.py: {what}")


def read(path):
    return (ROOT / path).read_text(encoding="utf-8")


def width_of(words, kind):
    """About as wide as the widest of the common fonts, DejaVu, makes these words."""
    size = 14 if "name" in kind else 17 if "head" in kind else 12 if "small" in kind or "mono" in kind else 13
    if "mono" in kind or "name" in kind:
        return 0.602 * size * len(words)
    ems = sum(0.36 if c in "fijlrtI .,;:'()" else 0.92 if c in "mwMW" else 0.7 if c.isupper() else 0.61 for c in words)
    return ems * size * (1.1 if "bold" in kind or "head" in kind else 1)


class Picture:
    """An SVG in parts. A kind is one class of SHEET or several."""

    def __init__(self, height, title, description):
        light, dark = (re.sub("[A-Z]{3,}", lambda name: COLOURS[name[0]][scheme], SHEET) for scheme in (0, 1))
        self.parts = [
            f'<svg xmlns="http://www.w3.org/2000/svg" viewBox="0 0 {WIDTH} {height}" width="{WIDTH}" height="{height}" role="img"'
            ' aria-labelledby="title desc">',
            f'<title id="title">{html.escape(title)}</title>', f'<desc id="desc">{html.escape(description)}</desc>',
            f"<style>\n{light}\n@media (prefers-color-scheme:dark){{\n{dark}}}\n</style>",
            f"<defs>{TIP.format('tip')}{TIP.format('waytip')}</defs>"]
        self.box(0, 0, WIDTH, height, "panel", 8)
        self.text(16, 30, title, "head")

    def box(self, x, y, width, height, kind="box", corner=5):
        self.parts.append(f'<rect class="{kind}" x="{x:g}" y="{y:g}" width="{width:g}" height="{height:g}" rx="{corner}"/>')

    def text(self, x, y, words, kind="", anchor="start", room=WIDTH, turned=False):
        if words and width_of(words, kind) > room:
            fail(f"no room for the words '{words}'")
        turn = f' transform="rotate(-90 {x:g} {y:g})"' if turned else ""
        line = f'<text class="{kind}" x="{x:g}" y="{y:g}" text-anchor="{anchor}"{turn}>{html.escape(words)}</text>'
        self.parts += [line] if words else []

    def label(self, x, y, width, height, kind, words, more="", of="", more_of="small muted", corner=5, inset=None):
        """A box with one line or two, in its middle or from an inset on."""
        self.box(x, y, width, height, kind, corner)
        at, anchor = (x + width / 2, "middle") if inset is None else (x + inset, "start")
        first = y + height / 2 + (-3.5 if more else 4.5)
        self.text(at, first, words, of, anchor, width - (inset or 4))
        self.text(at, first + 16, more, more_of, anchor, width - (inset or 4))

    def badge(self, x, y, number):
        self.parts.append(f'<circle class="solid" cx="{x:g}" cy="{y:g}" r="10"/>')
        self.text(x, y + 4.5, str(number), "small on", "middle")

    def path(self, points, kind="line", arrow=True):
        end = f' marker-end="url(#{"waytip" if kind == "way" else "tip"})"' if arrow else ""
        self.parts.append(f'<path class="{kind}" d="M{"L".join(f"{x:g} {y:g}" for x, y in points)}"{end}/>')

    def legend(self, y, *entries):
        x = 16
        for kind, words in entries:
            self.path([(x, y), (x + 34, y)], kind) if kind in ("way", "dash") else self.box(x, y - 8, 34, 16, kind, 2)
            self.text(x + 42, y + 4.5, words, "small")
            x += 58 + width_of(words, "small")


# The library: what each of its crates is, and its paper. Then what stands beside it.
LIBRARY = {
    "laws": ("no code", ""), "field": ("GF(2^8), S-box", "FIPS 197, 4"), "aes": ("AES-128", "FIPS 197, 5"),
    "basics": ("answers, texts", ""), "modes": ("CBC, CMAC, KDF", "SP 800-38A, B"), "message": ("slots, M1 to M5", "001, 4.9"),
    "device": ("record and rules", ""), "garage": ("the book", ""), "load": ("LOAD_KEY, export", ""),
    "commands": ("all others", ""), "boot": ("the boot check", ""), "garage_c": ("for C", ""),
    "she": ("what C calls", "include/she.h")}
BESIDE = {"demands": "theorems", "rounds": "theorems", "published": "theorems", "text": "programs", "vectors": "programs",
          "cases": "programs", "bench": "programs"}
# The stations of a load, a row a crate: the step of docs/ARCHITECTURE.md that begins there, `functions` of it, other words.
STATIONS = {
    "C": ["2 the firmware|lends M1 to M3", "1 the sender|writes M1 to M3", "7 the sender|compares both",
          "the firmware|answer, M4, M5"],
    "she": ["`she_load_key`|copies record", "", "", "`she_load_key`|stores record"],
    "load": ["3 `check_guard`|the first checks", "4 `authority_key`|its key, or FF", "5 `check_opened`|the last checks",
             "6 `put_loaded`|counter, flags"],
    "device": ["`is_made`|flags and lock", "`key_at`|the key, read", "`counter_at`|UID, flags too", "`put_slot`|slot anew"],
    "message": ["`is_allowed`|the pair", "`open`|M3, then M2", "", "`write_proof`|M4 and M5"],
    "modes": ["", "`text_mac`|`cbc_decrypt`", "", "`derive`|`text_mac`"],
    "aes": ["", "`encrypt_with`|`decrypt_with`", "", "`encrypt_with`"],
    "field": ["", "`look_up`|`double`", "", "`look_up`|`double`"]}
# The way from one to the next, by column and row.
WAY = ("1C 0C 0she 0load 0device 0message 0device 0load 1load 1device 1message 1modes 1aes 1field 1aes 1modes 1message 1device"
       " 1load 2load 2device 2load 3load 3message 3modes 3aes 3field 3aes 3modes 3message 3device 3load 3she 3C 2C").split()


def layers():
    uses = {name.split()[0]: used.split() for name, _, used in (line.partition(":") for line in read("crates.txt").splitlines())}
    for name in sorted(set(uses) ^ set(LIBRARY | BESIDE)):
        fail(f"the crate {name} " + ("has no place among the layers" if name in uses else "of the layers is not in crates.txt"))

    def level(name):
        return 1 + max((level(used) for used in uses[name] if used in uses), default=-1)

    rows = [[name for name in LIBRARY if level(name) == i] for i in range(level("she") + 1)]
    beside = [name for row in rows for name in row[1:] if name in STATIONS]
    if rows[-1] != ["she"] or beside or any(used not in LIBRARY for name in LIBRARY for used in uses[name]):
        fail("the library's crates don't stand on one another as they are drawn, with she on top")
    told = read("docs/ARCHITECTURE.md").partition("\n## How a load travels\n")[2].partition("\n## ")[0]
    if re.findall(r"^(\d+)\. ", told, re.M) != sorted(text[0] for row in STATIONS.values() for text in row if text[:1].isdigit()):
        fail("the steps of a load are not numbered as in docs/ARCHITECTURE.md")
    p = Picture(656, "The crates, and the way of a load through them",
                f"The library's crates as layers, each using only those below it: {', '.join(sum(rows[::-1], []))}. Beside them"
                f" {', '.join(BESIDE)}. A load goes from C into she and load, down to device, message, modes, aes and field, and"
                " back: checks, the message opened, checks of what it holds, M4 and M5 written, the record stored.")
    left, right, chip, small, middle = 16, 736, 108, 96, [196 + 124 * i for i in range(4)]
    top, tall, y = {}, {}, 52
    for row in [["C"]] + rows[::-1]:
        high = 52 if row[0] in STATIONS else 34
        for i, name in enumerate(row):   # the first is wide and has the stations; the others stand at the right end, on one another
            part = (high + 4) / (len(row) - 1) if i else high + 4
            top[name], tall[name] = y + part * max(0, i - 1), part - 4
            x, end = (right - small + 8, right) if i else (left, right - small * (len(row) > 1))
            what, paper = LIBRARY.get(name, ("over she.h", ""))
            aside, down = (10, 40) if tall[name] > 40 else (76, 22)
            p.box(x, top[name], end - x, tall[name], "open" if name == "C" else "band")
            p.text(x + 10, top[name] + min(22, tall[name] / 2 + 5), "C programs" if name == "C" else name,
                   "bold" if name == "C" else "name", room=end - x - 12)
            p.text(x + aside, y + down, what if tall[name] > 30 else "", "small muted", room=min(116, end - x - 12))
            p.text(end - 8, y + tall[name] / 2 + 4.5, paper if len(row) == 1 else "", "small muted", "end", small)
        y += tall[row[0]] + 6

    def go(start, end, kind="way"):
        (i, row), (j, other) = (int(start[0]), start[1:]), (int(end[0]), end[1:])
        if i == j:   # down on the left of a column, up on its right
            x, leave, enter = (middle[i] - 40, 46, 6) if top[row] < top[other] else (middle[i] + 36, 6, 46)
            p.path([(x, top[row] + leave), (x, top[other] + enter)], kind)
        else:
            edge = chip / 2 if i < j else -chip / 2
            p.path([(middle[i] + edge, top[row] + 26), (middle[j] - edge, top[other] + 26)], kind)

    for start, end in zip(WAY, WAY[1:]):
        upper, lower = sorted((start[1:], end[1:]), key=top.get)
        if upper not in ("C", lower) and lower not in uses[upper]:
            fail(f"the way of a load goes from {upper} to {lower}, which it does not use")
        go(start, end)
    turn = top["load"] - 3   # a refusal goes from the checks straight back
    p.path([(middle[0], turn + 9), (middle[0], turn), (middle[1], turn), (middle[1], top["she"] + 46)], "dash")
    go("2load", "2she", "dash")
    go("2she", "3she", "dash")
    p.label(middle[1] - chip / 2, top["she"] + 6, middle[2] - middle[1] + chip, 40, "open", "refused: the number of the",
            "first fault; nothing changes", "small", "small")
    for crate, column, cell in ((crate, i, cell) for crate, cells in STATIONS.items() for i, cell in enumerate(cells) if cell):
        for function in re.findall(r"`(\w+)`", cell):
            if f"fn {function}(" not in read(f"crates/{crate}/src/lib.rt"):
                fail(f"the way of a load: no function {function} in crate {crate}")
        number, first, more = re.fullmatch(r"(\d?) ?([^|]*)\|?(.*)", cell).groups()
        wide = 76 if "put_slot" in cell else chip   # leaves room for the way down beside it
        x = middle[column] + chip / 2 - wide
        p.label(x, top[crate] + 6, wide, 40, "tint", first.replace("`", ""), more.replace("`", ""),
                "mono" if "`" in first else "small bold", "mono" if "`" in more else "small")
        if number:
            p.badge(x - 5, top[crate] + 9, number)
    step = (WIDTH - 16 - right - 14) / len(BESIDE)   # beside the library: a column a crate, a cell for each crate that it uses
    at, cell = {name: right + 14 + step * (i + 0.5) for i, name in enumerate(BESIDE)}, 0.75 * step
    for kind in dict.fromkeys(BESIDE.values()):
        group = [at[name] for name in BESIDE if BESIDE[name] == kind]
        near, far = group[0] - cell / 2, group[-1] + cell / 2
        p.text((near + far) / 2, 62, kind, "small muted", "middle")
        p.path([(near, 74), (near, 69), (far, 69), (far, 74)], "line", False)
    for name, x in at.items():
        p.text(x + 5, top["load"] - 16, name, "name", turned=True)
        p.path([(x, top["load"] - 12), (x, max(top[used] for used in ["load", *uses[name]] if used in top) + 8)], "line", False)
        for used in uses[name]:
            if used in BESIDE:
                p.path([(x, top["load"] - 6), (at[used], top["load"] - 6)])
            elif used in LIBRARY:   # what is in neither is the kit's own
                row = rows[level(used)]
                wide, inset = cell / min(2, len(row)), min(6, tall[used] / 8)
                p.box(x - cell / 2 + wide * min(1, row.index(used)), top[used] + inset, wide, tall[used] - 2 * inset, "fill", 2)
    p.legend(y + 16, ("way", "the way of a load, its steps numbered as in docs/ARCHITECTURE.md"), ("dash", "a refusal"),
             ("fill", "uses the crate of this row"))
    p.text(16, y + 44, "A crate uses only what stands below it, and only through promises and named laws.", "small muted")
    return p


def definition(path, name):
    """The right side of a definition, up to the next empty line, in one line."""
    found = re.search(rf"^{name}(?: [\w′ ]+)? =(.*?)\n(?:\n|\Z)", read(path), re.M | re.S)
    return " ".join(found[1].split()) if found else fail(f"no definition {name} in {path}")


def checks_of(path, name):
    """The rows of a table of checks: the condition under which each finds fault, and the name of its answer."""
    table = definition(path, name).replace("first_fault (", "")
    rows = re.findall(r"\(((?:[^()]|\((?:[^()]|\([^()]*\))*\))*), (\w+)\)", table)
    return rows if len(rows) == table.count("∷") else fail(f"the checks of {name} in {path} can't be read")


def widths():
    """Bytes of M1 to M5; of the first block, bits of the counter, the flags in their order, and bits that are left."""
    source, lengths = "crates/message/specs/Flags.antt", definition("crates/load/specs/Load.antt", "five_lengths")
    flags = sorted((int(n), name) for name, n in re.findall(r"^(\w+) = (\d+)$", read(source), re.M) if name != "flag_count")
    if [n for n, _ in flags] != [2 ** i for i in range(int(definition(source, "flag_count")))]:
        fail(f"the flags of {source} are not the bits of a number")
    counter = int(definition("crates/message/specs/FirstBlock.antt", "max_counter")).bit_length()
    sizes = [int(n) for n in re.findall(r"\(m\d, (\d+)\)", lengths)]
    return sizes, counter, [name.upper() for _, name in reversed(flags)], 128 - counter - len(flags)


# The definitions of the messages as they are drawn.
DRAWN = {"slot_byte": "16 * target + authority", "m1": "uid ++ (slot_byte target authority ∷ [])",
         "m2": "cbc_encrypt (cipher (enc_key auth_key)) zero_block (first_block n counter flags ++ key)",
         "m3": "cmac (cipher (mac_key auth_key)) 384 (m1 ++ m2)", "m5": "cmac (cipher (mac_key key)) 256 m4",
         "m4": "m1 uid target authority ++ cipher (enc_key key) (proof_block counter)",
         "enc_key": "kdf key (constant_of KeyUpdateEnc)", "mac_key": "kdf key (constant_of KeyUpdateMac)",
         "first_block": "in_bytes 16 (counter * 2 ^ 100 + flags * 2 ^ (100 - n))", "proof_block": "first_block 1 counter 1"}


def messages():
    for name, text in DRAWN.items():
        if definition(f"crates/message/specs/{'FirstBlock' if 'block' in name else 'Messages'}.antt", name) != text:
            fail(f"the messages are drawn from another definition of {name}")
    sizes, counter, flags, filler = widths()
    p = Picture(664, "The key messages M1 to M5, and their keys",
                "M1: UID' of 15 bytes, target and authority of 4 bits each. M2, by CBC with a zero IV under K1: counter of"
                f" {counter} bits, {', '.join(flags)}, {filler} zero bits, new key of 16 bytes. M3: CMAC under K2 of M1 and M2."
                f" M4: the device's UID, the same slots, and by AES under K3 the counter, a 1 bit, {127 - counter} zero bits. M5:"
                " CMAC under K4 of M4. K1 and K2 are derived from the authority's key, K3 and K4 from the new key.")
    left, byte = 250, 19.5

    def strip(number, y, about, *fields):
        """A message with its fields (name, bits, kind); those too narrow for words have no name."""
        size, bit = sizes[number - 1], 0
        p.text(left, y - 9, f"M{number}", "name")
        p.text(left + 28, y - 9, f"{size} bytes: {about}", "small muted")
        for name, bits, kind in fields:
            wide = f"{bits} bits" if bits % 8 else f"{bits // 8} bytes"
            p.label(left + byte * bit / 8, y, byte * bits / 8, 42, kind, name, wide if name else "", corner=0)
            bit += bits
        if bit != 8 * size:
            fail(f"the fields of M{number} don't fill it")

    def zoom(x, y, first, *cells):
        """Bits of the message above, from byte `first` on, in cells (name, more, bits, width, kind)."""
        edges, bit = [x], 0
        for name, more, bits, wide, kind in cells:
            p.label(x, y, wide, 42, kind, name, more, *(("mono on", "mono on") if kind == "solid" else ()), corner=0)
            x, bit = x + wide, bit + bits
            edges += [x] * (bit % 8 == 0)
        for i, (near, far) in enumerate(zip(edges, edges[1:])):
            p.path([(near + 3, y + 46), (near + 3, y + 51), (far - 3, y + 51), (far - 3, y + 46)], "line", False)
            p.text((near + far) / 2, y + 66, f"byte {first + i}", "small", "middle")
            if i:
                p.path([(near, y - 6), (near, y + 66)], "edge", False)
        for place, end in [(first, edges[0]), (first + len(edges) - 1, edges[-1])]:
            p.path([(left + byte * place, y - 34), (end, y)], "thin", False)

    def key(name, source, y, constant, kind, *way):
        p.path([(30, source), (30, y), (176, y)])
        p.text(44, y - 24, "KDF with", "small muted")
        p.text(44, y - 8, constant, "mono", room=130)
        p.label(178, y - 13, 38, 26, kind, name, of="on" if kind == "solid" else "bold", corner=13)
        p.path([(216, y), *way], "way" if kind == "solid" else "line")

    slots = ("", 4, "box"), ("", 4, "box")
    before, after = counter % 8, -(counter + len(flags)) % 8   # bits beside the flags in their bytes
    shared = ("counter", f"last {before} bits", before, 26 * before, "tint")
    wide = (32 * byte - 26 * before - 20 * after) / len(flags)
    p.text(16, 66, "To the device", "bold")
    p.label(16, 80, 200, 32, "box", "the authority's key", of="bold")
    p.text(44, 130, "16 times FF while it is empty", "small muted", room=190)
    key("K1", 112, 197, "KEY_UPDATE_ENC_C", "solid", (left - 2, 197))
    key("K2", 112, 387, "KEY_UPDATE_MAC_C", "box", (left - 2, 387))
    strip(1, 76, "in clear", ("UID'", 120, "box"), *slots)
    for i, name in enumerate(["target", "authority"]):
        p.path([(left + 16 * byte, 97), (634, 76 + 42 * i)], "thin", False)
        p.label(634 + 120 * i, 76, 120, 42, "box", name, "4 bits", corner=0)
    strip(2, 176, "CBC under K1 with a zero IV, of", ("counter", counter, "tint"), ("", len(flags), "solid"),
          ("zeros", filler, "tint"), ("the new key", 128, "tint"))
    zoom(left, 252, counter // 8, shared,
         *((flag, f"0x{128 >> (counter + i) % 8:02X}", 1, wide, "solid") for i, flag in enumerate(flags)),
         ("zeros", f"first {after} bits", after, 20 * after, "tint"))
    strip(3, 366, "CMAC under K2 of M1 and M2", ("MAC", 128, "band"))
    p.text(16, 446, "Back from the device", "bold")
    p.label(16, 460, 200, 32, "box", "the new key", of="bold")
    key("K3", 492, 540, "KEY_UPDATE_ENC_C", "solid", (left + 17 * byte, 540), (left + 17 * byte, 520))
    key("K4", 492, 601, "KEY_UPDATE_MAC_C", "box", (left - 2, 601))
    strip(4, 476, "in clear, and AES under K3 of", ("UID", 120, "box"), *slots, ("counter", counter, "tint"), ("", 1, "bit"),
          ("zeros", 127 - counter, "tint"))
    zoom(634, 552, 16 + counter // 8, shared, ("1", f"0x{128 >> before:02X}", 1, 40, "solid"),
         ("zeros", f"first {7 - before} bits", 7 - before, 96, "tint"))
    strip(5, 580, "CMAC under K4 of M4", ("MAC", 128, "band"))
    p.legend(646, ("box", "in clear"), ("tint", "enciphered"), ("solid", "the flags, and M4's 1 bit"), ("band", "a MAC"))
    return p


# What each check asks, by the condition under which it finds fault, and more of that.
CHECKS = {
    "not (made d)": ("The record counts as made", "its marks, UID, slots, counters, flags and random state keep the rules"),
    "not lengths": ("All five buffers have their length", "{lengths} bytes"),
    "not (allowed target authority)":
        ("The pair is allowed", "target 1 by 1; 2 and 3 by 1 or 2; 4 to 13 by 1 or itself; 14 by 4 to 13 or 0"),
    "has_flag (flags_at d target) write": ("The target's WRITE is 0", "a slot with WRITE set takes no further key"),
    "is_empty d authority && not (eqb authority target)":
        ("The authority is not empty, or is the target itself", "an empty slot that loads itself counts as 16 bytes of FF"),
    "locked d authority": ("The authority is not locked", "locked: its DEBUGGER is 1 and a debugger is attached"),
    "not new.genuine": ("M3 is the MAC of M1 and M2", "all 16 bytes of it, under K2"),
    "not (is_for_us d target uid)":
        ("The message is for this device", "its own UID; or all zeros, and the target's WILDCARD is 0 or it is slot 14"),
    "not new.zerofill": ("The {filler} bits after the flags are zero", "in the first block of what M2 holds"),
    "not (counter_rises d target new.counter)":
        ("The counter is greater than the stored one", "target 14 keeps no counter and takes any")}


def checks():
    load, account = "crates/load/specs/Load.antt", "crates/device/specs/Account.antt"
    if not re.match("pair_checks .*opened_checks", definition(load, "load_checks")) or "refusal = unchanged;" not in read(load):
        fail("the order of a load's checks, or what a refusal leaves, is not as it is drawn")
    groups = [checks_of(account, "answer_by"), checks_of(load, "pair_checks"), checks_of(load, "opened_checks")]
    found = sum(groups, [])
    for condition in sorted({condition for condition, _ in found} ^ set(CHECKS)):
        fail(f"a check of LOAD_KEY without words, or words without a check: '{condition}'")
    sizes, _, _, filler = widths()
    lengths = ", ".join(f"M{i + 1} {n}" for i, n in enumerate(sizes))
    words = {check: [text.format(filler=filler, lengths=lengths) for text in texts] for check, texts in CHECKS.items()}
    numbers = {name: definition("crates/basics/specs/Answers.antt", name) for _, name in found + [("", "no_error")]}
    p = Picture(712, "The checks of LOAD_KEY, in their order",
                "Checks one after another, each with its answer where it fails: "
                + "; ".join(f"{words[condition][0]}, else {numbers[name]}" for condition, name in found)
                + ". Where all pass, M4 and M5 are written, the slot is stored, the answer is 0. A refusal changes nothing.")
    way, left, wide, right, y, number = 128, 152, 500, 690, 56, 0

    def step(title, more, answer=None, kind="box"):
        p.label(left, y, wide, 40, kind, title, more, "bold", inset=14)
        if answer:
            p.path([(left + wide, y + 20), (right - 2, y + 20)], "way" if kind == "tint" else "dash")
            p.box(right, y + 5, 194, 30, kind)
            p.text(right + 30, y + 25, numbers[answer], "bold", "end")
            p.text(right + 42, y + 24, answer.upper(), "mono", room=150)

    p.text(right, 46, "else the answer is", "small muted")
    end = y + 52 * (len(found) + 1) + 20
    p.path([(way, y + 20), (way, end), (left - 2, end)], "way")
    for title, rows in zip([("every call", "begins so"), ("before any", "key is used"), ("of what was", "opened")], groups):
        if rows is groups[-1]:
            step("The message is opened under the authority's key",
                 "M3 is made anew, and M2 is deciphered only where the two agree", kind="open")
            y += 52
        for i, line in enumerate(title):
            p.text(way - 28, y + 26 * len(rows) - 8 + 16 * i, line, "small muted", "end")
        end = y + 52 * len(rows) - 12
        p.path([(way - 14, y), (way - 20, y), (way - 20, end), (way - 14, end)], "line", False)
        for condition, answer in rows:
            number += 1
            p.badge(way, y + 20, number)
            step(*words[condition], answer)
            y += 52
    step("The target's slot is stored, M4 and M5 are written", "key, counter, flags as it keeps them; the device's own UID in M4",
         "no_error", "tint")
    p.text(left, y + 66, "A refusal changes nothing: the record, and the room for M4 and M5, stay as they were.", "bold")
    return p


# The rows of the table of times that are shown: two panels, each with a scale of its own, and two columns in each.
PANELS = [(["encrypt a block", "decrypt a block", "key schedule"],
           ["`she_cbc_encrypt`, a block", "`she_cbc_decrypt`, a block", "`she_cmac`, a block"]),
          (["`she_write_key`"], ["`she_load_key`"])]


def bench():
    page = read("docs/PERFORMANCE.md")
    machine = re.search(r"^\d{4}-\d\d-\d\d, [^,\n]+, [^,\n]+, gcc [\d.]+", page, re.M) or fail("no line with date and machine")
    table = page.partition("\n## Times\n\n")[2].partition("\n\n")[0].splitlines() or fail("no table of times")
    (unit, *heading), _, *rows = [[cell.strip() for cell in line.split("|")[1:-1]] for line in table]
    times = {row[0]: dict(zip(heading[:4], map(float, row[1:5]))) for row in rows}
    shown = [name for panel in PANELS for column in panel for name in column]
    for name in sorted(set(shown) - set(times)):
        fail(f"the table of times has no row {name}")
    p = Picture(574, "Ours beside others: " + unit,
                "; ".join(f"{name.replace('`', '')}: " + ", ".join(f"{who} {time:g}" for who, time in times[name].items())
                          for name in shown) + f". {machine[0]}.")
    p.text(16, 54, "Shorter is faster. aes_small, like ours, has a table of 256 bytes; aes_big and libtomcrypt, tables of words.",
           "small muted")
    y, length = 72, 280
    for panel in PANELS:
        most = max(time for column in panel for name in column for time in times[name].values())
        step = next(step for tens in range(9) for step in (10 ** tens, 2 * 10 ** tens, 5 * 10 ** tens) if most <= 4 * step)
        ticks = range(0, int(most + step), step)
        scale, bottom = length / ticks[-1], y + 100 * len(panel[0]) + 2
        for zero, names in zip((110, 556), panel):
            p.path([(zero, bottom), (zero + length, bottom)], "thin", False)
            for tick in ticks:
                p.path([(zero + tick * scale, bottom), (zero + tick * scale, bottom + 5)], "thin", False)
                p.text(zero + tick * scale, bottom + 18, f"{tick:,}", "small muted", "middle")
            for i, name in enumerate(names):
                p.text(zero, y + 100 * i + 14, name.replace("`", ""), "bold")
                for j, (who, time) in enumerate(times[name].items()):
                    at, lit = y + 100 * i + 22 + 18 * j, "small bold" if who == "ours" else "small"
                    p.box(zero, at, time * scale, 14, "solid" if who == "ours" else "fill", 0)
                    p.text(zero - 8, at + 11.5, who, lit, "end", 90)
                    p.text(zero + 6 + time * scale, at + 11.5, f"{time:,.1f}", lit)
        y = bottom + 40
    p.text(16, y + 10, f"make bench: {machine[0]}", "small muted")
    return p


def main():
    stale = []
    for draw in (layers, messages, checks, bench):
        file, svg = ROOT / "docs" / "pictures" / f"{draw.__name__}.svg", "\n".join(draw().parts + ["</svg>", ""])
        if "--check" not in sys.argv[1:]:
            file.parent.mkdir(exist_ok=True)
            file.write_text(svg)
        elif not file.is_file() or file.read_text() != svg:
            stale.append(str(file.relative_to(ROOT)))
    if stale:
        fail("not as this program would draw them: " + ", ".join(stale))


if __name__ == "__main__":
    main()
