#!/usr/bin/env python3
"""usage.py [TEST..]: the foreman's command as he runs it, from a shell: every form that it takes, every word that it must refuse,
random words, what it says of itself, and where it is installed to. Writes a line for each test; the status is 0 only where all pass."""
import random
import re
import subprocess
import sys

from shop import CHECKED, DOOR, NATIVE, ROOT, TIME, Bench, check, lines_of, main, sealed

SLOTS = ["SECRET_KEY", "MASTER_ECU_KEY", "BOOT_MAC_KEY", "BOOT_MAC", *(f"KEY_{n}" for n in range(1, 11)), "RAM_KEY"]
FLAGS = ["WILDCARD", "KEY_USAGE", "DEBUGGER", "BOOT", "WRITE"]


def morning_on(build):
    with Bench(build) as bench:
        line = ["timeout", "120", "sh", "demo/morning.sh", bench.bin]
        played = subprocess.run(line, cwd=ROOT, capture_output=True, text=True, env=bench.environment)
        check(played.returncode == 0, f"README.md's morning goes so ({build}):\n{played.stdout}{played.stderr}")
        return played.stdout.count("\n$ ")


def morning():
    """README.md's lines, each with what it shows; also with gcc's checkers, and under valgrind"""
    return f"README.md's {morning_on('plain')} lines say what they show, also with gcc's checkers ({morning_on('checked')}) and under " \
           f"valgrind ({morning_on('valgrind')})"


def refused(build, step):
    with Bench(build) as bench:
        bench.furnish()
        before = bench.files()
        cases = [line for line in (ROOT / "tests/garage/refusals.txt").read_text().split("\n") if line and not line.startswith("#")]
        for line, said in list(zip(cases[::2], cases[1::2]))[::step]:
            check(said.startswith("    ") and not line.startswith(" "), f"refusals.txt: {line} stands alone")
            ended = bench.run(line)
            check(ended == (2, "", f"garage: {said.strip()}\n"), f"{line} ({build}): {ended}, and it should be 2, {said.strip()}")
            check(bench.files() == before, f"{line} ({build}) was refused, and yet changed the folder")
        return len(cases) // 2


def refusals():
    """bad words in every place"""
    count = refused("plain", 1)
    refused("checked", 1)
    refused("valgrind", 7)
    return f"{count} command lines are refused, each with its line and status 2, the folder as it was; all with gcc's checkers too"


def round_trip(bench, target, authority, flags=""):
    """written, loaded and judged"""
    message = bench.does(f"garage write bus.book {target} {authority} {flags}")
    bench.does(f"printf '{message}' | garage-board load bus.board - - - >proof")
    bench.does(f"garage judge bus.book {target} - - <proof", 0, "yes\n")
    return message


def slots(text):
    """the lines of show, with counter and key alone: what book and board both say"""
    return re.findall(r"^(\w+): (counter \d+, key \w+)", text, re.M)


def forms():
    """every form that the command takes, with a board beside it"""
    with Bench() as bench:
        bench.write("secret.key", "00112233445566778899aabbccddeeff")
        bench.write("door.key", DOOR)
        bench.does("garage-board make bus.board $BUS --secret secret.key")
        bench.does("garage new bus.book $BUS SECRET_KEY=- <secret.key")
        round_trip(bench, "MASTER_ECU_KEY", "1")
        for number, name in enumerate(SLOTS[2:], 2):
            authority = "SECRET_KEY" if name == "RAM_KEY" else "MASTER_ECU_KEY"
            flags = " ".join(flag for bit, flag in enumerate(FLAGS[:4]) if number & 1 << bit)
            by_name = bench.does(f"cp bus.book copy.book; garage write copy.book {name} {authority} {flags} --key door.key")
            by_number = bench.does(f"garage write copy.book {number} {SLOTS.index(authority)} {flags} --key - <door.key")
            check(by_name == by_number, f"{name} and {number} give two messages")
            round_trip(bench, name, authority, flags)
        shown = bench.does("garage show bus.book --keys")
        check(slots(shown) == slots(bench.does("garage-board show bus.board")), f"book and board differ:\n{shown}")
        held = re.findall(r"key ([0-9a-f]{32})", shown)
        check(len(set(held)) == 15, "the system's random keys are not all others")
        hidden = bench.does("garage show bus.book")
        check(not any(key in hidden for key in held) and hidden.count("key held") == 15, f"keys are shown unasked:\n{hidden}")
        # the same message again, into files: the book, with a time long ago in it, stays as it is, and no file is written over
        message = bench.does("garage write bus.book KEY_1 1 KEY_USAGE DEBUGGER")
        bench.write("bus.book", sealed(TIME.sub("2020-02-20T20:20:20Z", lines_of(bench.read("bus.book")).decode()).encode()))
        waiting = bench.read("bus.book")
        bench.does("umask 0; garage write bus.book KEY_1 1 DEBUGGER KEY_USAGE --to letter", 0, "")
        check("".join(bench.read(f"letter.m{n}").decode() for n in (1, 2, 3)) == message, "the same command gives another message")
        check(bench.read("bus.book") == waiting, "the same command again changes the book")
        check(all((bench.folder / f"letter.m{n}").stat().st_mode & 0o777 == 0o600 for n in (1, 2, 3)), "others can read a message")
        said = bench.run("garage write bus.book KEY_1 1 DEBUGGER KEY_USAGE")[2]
        check(said == "garage: this is the message that waits for KEY_1, once more\n", f"the same again in silence: {said}")
        bench.write("over.m3", "something else")
        bench.does("cp bus.book book.m1")
        before = bench.files()
        for prefix, path in (("over", "over.m3"), ("book", "book.m1"), ("none/x", "none/x.m1")):
            for book in ("bus.book", "book.m1"):
                said = bench.run(f"garage write {book} KEY_1 1 --to {prefix}")[2]
                check(said.startswith(f"garage: '{path}' can't be made: ") and bench.files() == before, f"--to {prefix}: {said}")
        # another in its place has the same key, unless one is given; and what can be read by everybody is told
        replaces = "garage: this replaces what waited for KEY_1, which must not be delivered any more\n"
        key = re.search(r"^KEY_1: .*new-key (\w+)", bench.does("garage show bus.book --keys").replace(", key", ", new-key"), re.M)
        check(bench.run("garage write bus.book KEY_1 KEY_1")[2] == replaces, "a message is replaced in silence")
        check(key[1] in bench.does("garage show bus.book --keys"), "a key that waited is forgotten")
        check(bench.run("garage new empty.book $BUS; garage write empty.book 1 1")[2] ==
              "garage: MASTER_ECU_KEY counts as empty, so whoever reads this message can read the key\n", "a key is open in silence")
        # a proof by digits, files and standard input; a no for another, and for the same again
        bench.does("garage write bus.book KEY_1 1 --key door.key | garage-board load bus.board - - - >proof")
        m4, m5 = bench.read("proof").decode().split()
        bench.write("m4", m4)
        bench.write("m5", m5.upper())
        before = bench.read("bus.book")
        bench.does(f"garage judge bus.book KEY_1 {m4} {m5[:-1]}{int(m5[-1], 16) ^ 1:x}", 1, "no\n")
        bench.does("garage judge bus.book KEY_2 m4 m5", 1, "no\n")
        check(bench.read("bus.book") == before, "a no changes the book")
        for proof in (f"{m4} {m5}", "m4 m5", f"- {m5} <m4", "- - <proof", f"{m4.upper()} - <m5"):
            bench.write("bus.book", before)
            bench.does(f"garage judge bus.book 4 {proof}", 0, "yes\n")
            check(f"KEY_1: counter 2, key {DOOR}, waiting none\n" in bench.does("garage show bus.book --keys"), "a yes changes nothing")
        check(bench.run("garage judge bus.book KEY_1 m4 m5") == (1, "no\n", "garage: no message waits for KEY_1\n"), "a yes twice")
        said = bench.run("garage judge bus.book KEY_1 m4 m5 >/dev/full")[2]
        check(said == "garage: standard output can't be written: No space left on device (12 GENERAL_ERROR)\n", f"two lines: {said}")
        check(bench.run("garage-board load bus.board 00 00 00")[0] == 2 and "LIE OPEN" in bench.run("garage-board show bus.board")[2],
              "the board takes anything, or is silent about its keys")
    return "every slot by name and number, keys and proofs from everywhere, in files and again; book and board hold the same"


def helps():
    """--help of each verb: a usage, and an example that is one"""
    with Bench() as bench:
        overview = bench.does("garage --help")
        manual = re.sub(r"\\(.)", r"\1", (ROOT / "garage/garage.1").read_text())
        for verb in ("new", "show", "write", "judge"):
            text = bench.does(f"garage {verb} --help")
            usage = re.match(rf"usage: (garage {verb} .*)\n\n", text)
            check(usage and usage[1] in overview and re.search(rf"\nExample: garage {verb} .*\n$", text), f"{verb} --help: {text}")
            for word in set(re.findall(r"--\w+|[A-Z_]{4,}", text)):
                check(word in manual, f"the manual page has no {word}, which {verb} --help speaks of")
            check(max(map(len, text.split("\n"))) <= 132 and "\033" not in text and "\t" not in text, f"{verb} --help is too wide")
        for name in SLOTS[:4] + FLAGS:
            check(name in manual, f"the manual page has no {name}")
        for program in ("garage", "garage-board"):
            check(bench.run(f"{program} --help")[0] == 0, f"{program} --help")
    formatted = subprocess.run(["man", "--warnings", "-l", str(ROOT / "garage/garage.1")], capture_output=True, text=True,
                               env={"PATH": "/usr/bin:/bin", "MANWIDTH": "100", "LC_ALL": "C.UTF-8"})
    check(formatted.returncode == 0 and not formatted.stderr and "GARAGE(1)" in formatted.stdout, f"the manual page: {formatted.stderr}")
    return "each verb has its help with an example, and the manual page has each of their words and is set without a warning"


def words():
    """random words, most of them nearly right, into what reads words, with gcc's checkers"""
    with Bench() as bench:
        return bench.does(f"{CHECKED}'{NATIVE}/garage-words' 1 400000").strip()


def lines():
    """random words in every place, valid ones among them: an answer, one line for a refusal, and a book that is whole"""
    draw = random.Random(1)
    words = [*SLOTS, *FLAGS, *map(str, range(-1, 17)), "0x11", "017", "1x", "", "99999999999999999999", "-", "--", "--key",
             "--to", "--keys", "door.key", "bus.book", "m4", "m5", "KEY_1@1", "KEY_1@1=door.key", "4=", "\x01\x02", "\xff", "a" * 3000,
             "%s%n", "\n", "ab" * 16, "ab" * 32, "ab" * 15]
    counted = {0: 0, 1: 0, 2: 0}
    with Bench("checked") as bench:
        bench.furnish()
        for _ in range(800):
            line = ["garage", draw.choice(["new", "show", "write", "judge", draw.choice(words)])]
            line += [draw.choice(["bus.book", "bus.book", draw.choice(words)])] + draw.choices(words, k=draw.randrange(6))
            if draw.randrange(4) == 0:
                line = ["garage", *draw.choice([("judge", "bus.book", draw.choice(SLOTS), "m4", "m5"),
                                                ("write", "bus.book", draw.choice(SLOTS[1:]), "1", draw.choice(FLAGS + words))])]
            ran = subprocess.run(line, cwd=bench.folder, env=bench.environment, capture_output=True, stdin=subprocess.DEVNULL, timeout=60)
            said = ran.stderr.decode(errors="replace")
            check(ran.returncode in counted, f"{line}: status {ran.returncode}, {said}")
            one_line = re.fullmatch(r"garage: [^\n]* \(\d+ [A-Z_]+\)\n", said)
            check(ran.returncode != 2 or (one_line and not ran.stdout), f"{line}: {said}, {ran.stdout}")
            check(ran.returncode != 1 or ran.stdout == b"no\n", f"{line}: a no that isn't one: {said}")
            counted[ran.returncode] += 1
        bench.does("garage show bus.book")
    check(min(counted.values()) > 20, f"too few of a status: {counted}")
    return f"800 command lines of random words: {counted[0]} done, {counted[1]} no, {counted[2]} refused, with gcc's checkers"


def installed():
    """make install puts everything in its place, and that works there"""
    with Bench() as bench:
        place = bench.folder / "usr"
        made = subprocess.run(["sh", "tools/install.sh", str(place)], cwd=ROOT, capture_output=True, text=True)
        check(made.returncode == 0, made.stderr)
        there = sorted(str(file.relative_to(place)) for file in place.rglob("*") if file.is_file())
        check(there == ["bin/garage", "include/garage.h", "include/she.h", "lib/libgarage.a", "lib/libshe.a", "share/man/man1/garage.1"],
              f"installed are {there}")
        bench.does("usr/bin/garage new x.book $BUS")
        bench.write("x.c", '#include <garage.h>\n#include <she.h>\nint main(void) { static struct garage_book book; static uint8_t b[16];'
                           'return garage_write(&book, 1, 1, 0, b, 16, b, 0, b, 0, b, 0) != 12 || she_kdf(b, 0, b, 0, b, 0) != 12; }\n')
        bench.does("gcc -Iusr/include x.c -Lusr/lib -lgarage -lshe -o x && ./x")
    return "the command, its manual page, headers and archives, and not the board to try it on"


def small():
    """the command's own code is not proved, so there is little of it"""
    lines = 0
    for file in sorted((ROOT / "garage").glob("*.[ch]")):
        text = re.sub(r"/\*.*?\*/", "", file.read_text(), flags=re.S)
        lines += sum(1 for line in text.split("\n") if line.strip()) if file.name != "board.c" else 0
    check(lines < 600, f"the command has {lines} lines of code")
    return f"{lines} lines of code, without comments and blank lines"


if __name__ == "__main__":
    sys.exit(main([small, morning, refusals, forms, helps, words, lines, installed], sys.argv[1:]))
