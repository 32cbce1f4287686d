#!/usr/bin/env python3
"""books.py [TEST..]: what may befall the foreman's book: damage, a full disk, a cut at any moment, two commands at once. Always the
old book or the new one is there, whole; and what isn't whole is refused, and left as it is. Also that a book is its owner's alone, and
that no key is left in the memory. Writes a line for each test; the status is 0 only where all pass."""
import concurrent.futures
import itertools
import os
import random
import re
import subprocess
import sys

from shop import DOOR, MASTER, NATIVE, Bench, check, cmac, lines_of, main, sealed, timeless

WRITE = "garage write bus.book KEY_2 MASTER_ECU_KEY BOOT --key door.key"


def refused_books(books, build="plain"):
    """each of them is refused, in one line, and left as it is"""
    count = 0
    with Bench(build) as bench:
        for book in books:
            bench.write("bus.book", book)
            ran = subprocess.run([bench.bin / "garage", "show", "bus.book"], cwd=bench.folder, env=bench.environment, capture_output=True,
                                 timeout=60)
            one_line = re.fullmatch(rb"garage: [^\n]* \(12 GENERAL_ERROR\)\n", ran.stderr)
            check(ran.returncode == 2 and one_line and not ran.stdout, f"{build}, {book[:3000]}: {ran}")
            check(bench.files().keys() == {"bus.book"} and bench.read("bus.book") == book, "a damaged book was changed")
            count += 1
    return count


def full_book():
    with Bench() as bench:
        bench.furnish()
        bench.does("garage write bus.book KEY_2 KEY_2 BOOT KEY_USAGE --key door.key")
        return bench.read("bus.book")


def damage():
    """every byte changed in several ways, every length, and bytes more"""
    book = full_book()
    changed = (book[:i] + bytes([value]) + book[i + 1:] for i in range(len(book))
               for value in (book[i] ^ 1, book[i] ^ 0x20, book[i] ^ 0x80))
    cut = (book[:i] for i in range(len(book)))
    longer = (book + more for more in (b"\n", b" ", b"\0", b"0", b"cmac", book))
    lost = (book[:i] + book[i + 1:] for i in range(0, len(book), 3))
    count = refused_books(itertools.chain(changed, cut, longer, lost))
    checked = refused_books((book[:i] + bytes([book[i] ^ 1]) + book[i + 1:] for i in range(0, len(book), 2)), "checked")
    return f"{count} damaged books are refused and left as they are, {checked} of the kind with gcc's checkers"


# texts that are written otherwise, or say what no call can have left
OTHERWISE = [
    (b"counter 1,", b"counter 01,"), (b"counter 1,", b"counter  1,"), (b"counter 1,", b"counter 4294967297,"),
    (b"counter 1,", b"counter 0x1,"), (b"counter 1,", b"counter 268435456,"), (b"counter 1,", b"counter ,"),
    (b"key none", b"key held"), (b"key none", b"key "), (b"SECRET_KEY", b"secret_key"), (b"RAM_KEY", b"KEY_11"),
    (b"SECRET_KEY: counter 0", b"SECRET_KEY: counter 1"), (b"waiting none", b"waiting"), (b"waiting none", b"waiting since"),
    (DOOR.encode(), DOOR.upper().encode()), (DOOR.encode(), DOOR[1:].encode()), (DOOR.encode(), DOOR.encode() + b"0"),
    (b"by KEY_2", b"by KEY_1"), (b"by KEY_2", b"by 5"), (b"by KEY_2", b"by nobody"), (b"by KEY_2", b"by none"),
    (b"flags KEY_USAGE+BOOT", b"flags BOOT+KEY_USAGE"), (b"flags KEY_USAGE+BOOT", b"flags BOOT+BOOT"),
    (b"flags KEY_USAGE+BOOT", b"flags LOUD"), (b"flags KEY_USAGE+BOOT", b"flags KEY_USAGE+BOOT+"),
    (b"counter 4, key", b"counter 5, key"), (b"counter 4, key", b"counter 3, key"), (b"uid 62", b"uid 6"), (b"uid 62", b"uid ZZ"),
    (b"garage book 1", b"garage book 01"), (b"garage book 1\n", b"garage book 1\n\n"), (b"garage book 1\n", b"garage book 1\r\n"),
    (b"\nKEY_4:", b"\nKEY_5:"), (b"\nKEY_4:", b"\n\nKEY_4:"), (b"Z, counter", b"z, counter"), (b"since 2", b"since 22"),
    (b"since 20", b"since \x1b["),
]


def altered():
    """books that are altered by hand, and have the right checksum again"""
    book = full_book()
    check(sealed(lines_of(book)) == book, f"OpenSSL has {cmac(lines_of(book))} for the checksum")
    lines = lines_of(book)
    with Bench() as bench:  # the longest that there is
        bench.furnish()
        bench.does("garage new long $BUS 1@268435454=master.key " + " ".join(f"{slot}@268435454=door.key" for slot in range(2, 14)))
        for slot in range(1, 14):
            bench.does(f"garage write long {slot} 1 WILDCARD KEY_USAGE DEBUGGER BOOT WRITE --key door.key")
        check(bench.does("garage show long --keys").count("counter 268435455") == 13, "the longest book isn't whole")
    books = [sealed(re.sub(re.escape(old), lambda _: new, lines, count=1)) for old, new in OTHERWISE]
    for (old, _), other in zip(OTHERWISE, books):
        check(old in lines and other != book, f"{old} is nothing to alter")
    books += [sealed(re.sub(rb"uid \w+", b"uid " + b"0" * 30, lines)), sealed(b""), sealed(lines[:-1]), sealed(lines + lines)]
    parts = lines.split(b"\n")
    books += [sealed(b"\n".join(parts[:i] + parts[i + 1:])) for i in range(len(parts) - 1)]
    count = refused_books(books, "checked")
    draw, taken = random.Random(1), 0
    with Bench("checked") as bench:
        for _ in range(400):  # two words in each other's place: what is taken says what is written there
            words = re.split(rb"([ ,:\n]+)", lines)
            i, j = draw.sample(range(0, len(words), 2), 2)
            words[i], words[j] = words[j], words[i]
            other = sealed(b"".join(words))
            bench.write("bus.book", other)
            status, shown, _ = bench.run("garage show bus.book --keys")
            check(status == 2 or (status == 0 and b"garage book 1\n" + shown.encode() == lines_of(other)), f"{other} is read as {shown}")
            taken += status == 0
    check(taken < 200, f"{taken} of 400 are taken")
    return f"{count} books altered by hand are refused, and of 400 more {400 - taken}; the checksum is OpenSSL's CMAC"


def own():
    """readable by its owner alone, whatever the shell's mask is"""
    with Bench() as bench:
        bench.furnish()
        for mask in ("0", "022", "077", "0777"):
            bench.does(f"umask {mask}; garage new {mask}.book $BUS && garage write {mask}.book 1 1 && {WRITE}")
            for name in (f"{mask}.book", "bus.book"):
                mode = (bench.folder / name).stat().st_mode & 0o777
                check(mode == 0o600, f"{name} has mode {mode:o} under the mask {mask}")
        try:
            os.chown(bench.folder / "bus.book", os.geteuid() + 1, -1)
        except OSError:
            return "mode 600 under every mask; that another's book is refused can't be tried, as none can be made here"
        check("is another user's" in bench.run("garage show bus.book")[2], "another's book is read")
    return "mode 600 under every mask, and another's book is refused"


def full():
    """no room: for the book, for its message, for what is printed"""
    with Bench() as bench:
        bench.furnish()
        before = bench.files()
        for blocks in range(9):
            status, printed, said = bench.run(f"ulimit -f {blocks}; {WRITE}")
            if status == 0:
                break
            check((status, printed) == (2, "") and re.fullmatch(r"garage: 'bus\.book' can't be saved, and is as it was: .*\n", said),
                  f"{blocks} blocks: {status}, {printed}, {said}")
            check(bench.files() == before, f"{blocks} blocks: the folder has changed")
        check(0 < blocks < 8 and printed and bench.does("garage show bus.book"), f"there was room at {blocks} blocks")
        bench.write("bus.book", before["bus.book"][1])
        bench.does(f"{WRITE} --to first")
        other = WRITE.replace("BOOT", "WRITE")  # which replaces it
        message = bench.does(f"cp bus.book other.book; {other.replace('bus', 'other')}")
        for way, why in ((">/dev/full", "No space left on device"), (">&-", "Bad file descriptor"), ("<&- >&- 2>&-", None)):
            bench.does("cp bus.book again.book")
            status, _, said = bench.run(f"{other.replace('bus', 'again')} {way}")
            note = "garage: this replaces what waited for KEY_2, which must not be delivered any more\n"
            line = f"garage: standard output can't be written: {why} (12 GENERAL_ERROR)\n"
            check(status == 2 and said == (note + line if why else ""), f"{way}: {said}")
            bench.does(other.replace("bus", "again").replace("--key door.key", ""), 0, message)
        reader, writer = os.pipe()
        os.close(reader)
        ran = subprocess.run(["sh", "-c", other], stdout=writer, stderr=subprocess.PIPE, cwd=bench.folder, env=bench.environment)
        os.close(writer)
        check(ran.returncode == 2 and b"Broken pipe" in ran.stderr, f"a pipe that nobody reads: {ran}")
    return f"a book that finds no room below {blocks} blocks stays as it was; what couldn't be printed is printed again"


def calls_of(bench, line):
    """the system calls of a command, in their order"""
    status, printed, said = bench.run(f"strace -o trace {line}")
    check(status == 0, f"strace: {said}")
    traced = [re.match(r"(\w+)\(", call) for call in bench.read("trace").decode(errors="replace").split("\n")]
    return [call[1] for call in traced if call], printed


def state_of(bench):
    status, shown, said = bench.run("garage show bus.book --keys")
    check(status == 0, f"the book is neither the old nor the new one: {said}")
    return timeless(shown)


def cut(line, prepare, again, letter=""):
    """a command that is killed, or refused by the system, at each of its calls; `again` is what must print the same after it, and
    `letter` prints what it has left in files, and takes that away"""
    kills = errors = 0
    with Bench() as bench:
        bench.furnish()
        prepare(bench)
        start = bench.read("bus.book")
        old = state_of(bench)
        calls, printed = calls_of(bench, line + letter)
        new = state_of(bench)
        check(old != new and printed, f"{line} changes nothing")
        trace = bench.read("trace").decode(errors="replace")
        gives = r"write\(\d+, \S+, (?:33|65)\)" if letter else r"write\(1, "
        check(re.search(rf"fsync\(.*renameat\(.*fsync\(.*{gives}", trace, re.S), f"the order of {line}:\n{trace}")
        check(not re.search(rf"{gives}.*fsync\(", trace, re.S), f"printed before it is saved:\n{trace}")
        locked = calls.index("flock")
        faults = [(i, "signal=KILL") for i in range(1, len(calls))]
        # brk, by which memory is asked for, has no errors to give
        faults += [(i, f"error={error}") for i in range(locked - 1, len(calls) - 1) for error in ("EIO", "ENOSPC") if calls[i] != "brk"]
        for i, fault in faults:
            where = f"{line}, {fault} at call {i}, {calls[i]}"
            bench.write("bus.book", start)
            inject = f"strace -o /dev/null -e inject={calls[i]}:{fault}:when={calls[:i + 1].count(calls[i])}"
            status, out, said = bench.run(f"{inject} {line}{letter}")
            state = state_of(bench)
            check(state in (old, new), f"{where}: neither the old book nor the new one:\n{state}")
            check(not out or state == new, f"{where}: printed, and not saved")
            if fault == "signal=KILL":
                check(status in (137, -9), f"{where}: not killed: {status}")
                kills += 1
            else:
                refused = status == 2 and re.search(r"^garage: .* \(12 GENERAL_ERROR\)$", said, re.M)
                check((status == 0 and out == printed and state == new) or refused, f"{where}: {status}, {out}, {said}")
                check(status == 0 or ("as it was" in said) <= (state == old) and ("is saved" in said) <= (state == new), f"{where}: {said}")
                check(not letter or status == 0 or not out, f"{where}: refused, and a letter is left")
                errors += status == 2
            if state == old:  # as if nothing had been
                bench.does(line + letter, 0, printed)
            elif "write" in line:  # the message is there once more
                bench.does(again + letter, 0, printed)
            else:  # the yes is over
                bench.does(again, 1, "no\n")
            check(state_of(bench) == new and not (bench.folder / ".garage-new").exists(), f"{where}: and the same again fails")
    return kills, errors


def cuts():
    """a cut at any moment"""
    def proof_waits(bench):
        bench.does("garage-board make bus.board $BUS && garage new new.book $BUS && mv new.book bus.book")
        bench.does("garage write bus.book 1 1 --key master.key | garage-board load bus.board - - - >proof")

    letter = " --to letter; status=$?; cat letter.m?; rm -f letter.m?; exit $status"
    judge = "garage judge bus.book 1 - - <proof"
    all_cuts = [cut(WRITE, lambda _: None, WRITE.replace("--key door.key", "")), cut(judge, proof_waits, judge),
                cut(WRITE, lambda _: None, WRITE.replace("--key door.key", ""), letter)]
    check(min(errors for _, errors in all_cuts) > 5, f"too few errors were told: {all_cuts}")
    with Bench() as bench:
        calls, _ = calls_of(bench, "garage new bus.book $BUS")
        new = bench.read("bus.book")
        for i in range(1, len(calls)):
            (bench.folder / "bus.book").unlink(missing_ok=True)
            bench.run(f"strace -o /dev/null -e inject={calls[i]}:signal=KILL:when={calls[:i + 1].count(calls[i])} garage new bus.book $BUS")
            if not (bench.folder / "bus.book").exists():
                bench.does("garage new bus.book $BUS")
            check(bench.read("bus.book") == new, f"a new book that was cut off at call {i}, {calls[i]}")
            bench.does("garage write bus.book 1 1")
            check(not (bench.folder / ".garage-new").exists(), "a file beside the book stays")
    kills, errors = (sum(counts) for counts in zip(*all_cuts, (len(calls) - 1, 0)))
    return f"{kills} kills and {errors} errors of the system: the old book or the new one, and the same command again goes on from there"


def at_once():
    """two commands at one time, a thousand times: no update is lost"""
    with Bench() as bench, concurrent.futures.ThreadPoolExecutor(2) as two:
        bench.furnish()
        start = bench.read("bus.book")
        slots = [f"KEY_{n}" for n in range(4, 11)]
        garage = str(bench.bin / "garage")

        def write(slot):
            ran = subprocess.run([garage, "write", "bus.book", slot, "1", "--key", "door.key"], cwd=bench.folder, capture_output=True,
                                 timeout=60)
            check(ran.returncode == 0 and ran.stdout.count(b"\n") == 3, f"{slot}: {ran}")

        for turn in range(1000):
            if turn % 3 == 0:
                bench.write("bus.book", start)
                waiting = {"KEY_3"}
            pair = (slots[turn % 7], slots[(turn + 1 + turn % 6) % 7])
            list(two.map(write, pair))
            waiting |= set(pair)
            found = set(re.findall(r"^(\w+): .*waiting since", bench.read("bus.book").decode(), re.M))
            check(found == waiting, f"turn {turn}: {found} wait, and should {waiting}")
        bench.does("garage show bus.book")
    return "1000 pairs of commands at one time, and no update lost"


def wiped():
    """no key is left in the memory, of a command that succeeds and of one that is refused"""
    def turned(key):
        return "".join(f"{15 - int(digit, 16):x}" for digit in key)

    lines = [(0, "write bus.book KEY_2 1 --key door.key"), (0, "write bus.book KEY_2 1"), (0, "show bus.book --keys"),
             (1, "judge bus.book KEY_3 m4 m5"), (2, "judge bus.book 0 m4 m5"), (2, "write bus.book KEY_1 1 --key door.key"),
             (2, "write bus.book KEY_2 KEY_3 --key door.key"), (0, "new x.book $BUS KEY_1@1=door.key 1@1=master.key"),
             (2, "new bus.book $BUS KEY_1@1=- <door.key"), (2, "show bus.book --keys >/dev/full"), (2, "show cut.book"),
             (2, "new y.book $BUS KEY_1@1=two.key"), (0, "judge new.book 1 - - <proof")]
    with Bench() as bench:
        bench.furnish()
        bench.does("garage-board make bus.board $BUS && garage new new.book $BUS")
        bench.does("garage write new.book 1 1 --key master.key | garage-board load bus.board - - - >proof")
        for status, line in lines:
            bench.does(f"'{NATIVE}/garage-wiped' {turned(MASTER)} {turned(DOOR)} -- {line}", status)
        left = bench.run(f"'{NATIVE}/garage-wiped' {turned(MASTER)} {turned(DOOR)} -- new z.book {MASTER}")
        check(left[0] == 9, f"a key that stands in the memory isn't found: {left}")
    return f"{len(lines)} commands leave no key in their memory, as bytes or as digits"


if __name__ == "__main__":
    sys.exit(main([damage, altered, own, full, cuts, at_once, wiped], sys.argv[1:]))
