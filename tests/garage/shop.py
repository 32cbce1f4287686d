"""shop.py: what the tests of the foreman's command share: a bench with files to work on, and commands run there from a shell.

The command is that of target/native, or another build of it: with gcc's checkers in it, or under valgrind.
"""
import os
import pathlib
import platform
import re
import subprocess
import tempfile

ROOT = pathlib.Path(__file__).resolve().parents[2]
NATIVE = ROOT / "target" / "native"
UID = "627573203132000000000000000001"
MASTER, DOOR = "0f1571c947d9e8590cb7add6af7f6798", "5468617473206d79204b756e67204675"
TIME = re.compile(r"\d{4}-\d\d-\d\dT\d\d:\d\d:\d\dZ")
# gcc's checkers want their addresses free, which some kernels' random places are not
FREE = f"setarch {platform.machine()} -R "
CHECKED = FREE * (subprocess.run((FREE + "true").split(), capture_output=True).returncode == 0)
BUILDS = {
    "checked": CHECKED + '"{native}/{name}-checked" "$@"',
    "valgrind": 'valgrind --quiet --error-exitcode=9 --leak-check=full "{native}/{name}" "$@"',
}


class Failed(Exception):
    """What a command did isn't what it should."""


def check(fine, what):
    if not fine:
        raise Failed(what)


class Bench:
    """a folder to work in, and the commands of a build before all others"""

    def __init__(self, build="plain"):
        self.place = tempfile.TemporaryDirectory()
        self.bin, self.folder = pathlib.Path(self.place.name) / "bin", pathlib.Path(self.place.name) / "bench"
        self.bin.mkdir()
        self.folder.mkdir()
        for name in ("garage", "garage-board"):
            command = self.bin / name
            if build == "plain":
                command.symlink_to(NATIVE / name)
            else:
                command.write_text("#!/bin/sh\nexec " + BUILDS[build].format(native=NATIVE, name=name) + "\n")
                command.chmod(0o755)
        self.environment = {**os.environ, "PATH": f"{self.bin}:{os.environ['PATH']}", "BUS": UID,
                            "ASAN_OPTIONS": "detect_leaks=0:exitcode=99", "UBSAN_OPTIONS": "exitcode=99"}  # which is no status of ours

    def __enter__(self):
        return self

    def __exit__(self, *_):
        self.place.cleanup()

    def run(self, line):
        """a line in a shell, of which nothing is left after 20 seconds: (status, standard output, standard error)"""
        ran = subprocess.run(["timeout", "-s", "KILL", "20", "sh", "-c", line], cwd=self.folder, env=self.environment, text=True,
                             capture_output=True, errors="surrogateescape")
        return ran.returncode, ran.stdout, ran.stderr

    def does(self, line, status=0, output=None):
        """a line that must end so; gives what it printed"""
        ended, printed, said = self.run(line)
        check(ended == status and output in (None, printed), f"{line}: status {ended}, printed {printed!r}, said {said!r}")
        return printed

    def write(self, name, content, mode=0o600):
        file = self.folder / name
        file.write_bytes(content.encode() if isinstance(content, str) else content)
        file.chmod(mode)

    def read(self, name):
        return (self.folder / name).read_bytes()

    def files(self):
        """all of the folder: names, modes and bytes"""
        return {file.name: (file.lstat().st_mode, file.read_bytes() if file.is_file() else None) for file in self.folder.iterdir()}

    def furnish(self):
        """the files that refusals.txt speaks of"""
        self.write("master.key", MASTER + "\n")
        self.write("door.key", DOOR + "\n")
        self.does("garage new bus.book $BUS MASTER_ECU_KEY@1=master.key KEY_1@268435455=door.key KEY_2@3")
        self.does("garage write bus.book KEY_3 MASTER_ECU_KEY --key door.key")
        book = self.read("bus.book")
        self.write("short.key", DOOR[1:])
        self.write("long.key", DOOR + "0")
        self.write("two.key", f"{DOOR}\n{DOOR}\n")
        self.write("zero.key", f"{DOOR}\0{DOOR}")
        self.write("seen.book", book, 0o644)
        self.write("foreign.book", "a letter to the museum\n")
        self.write("empty.book", "")
        self.write("later.book", book.replace(b"book 1", b"book 2"))
        self.write("zeros.book", book.replace(b"none", b"no\0e"))
        self.write("long.book", book * 10)
        self.write("cut.book", book[:-1])
        self.write("m4", "00" * 32 + "\n")
        self.write("m5", "00" * 16 + "\n")
        (self.folder / "link.book").symlink_to("bus.book")
        os.mkfifo(self.folder / "pipe")


def cmac(text):
    """that of OpenSSL, under a key of zeros"""
    ran = subprocess.run(["openssl", "mac", "-cipher", "AES-128-CBC", "-macopt", "hexkey:" + "00" * 16, "CMAC"], input=text,
                         capture_output=True)
    return ran.stdout.strip().lower()


def sealed(lines):
    """a book of these lines, with the right checksum"""
    return lines + b"cmac " + cmac(lines) + b"\n"


def lines_of(book):
    """a book without its checksum"""
    return book[:book.rindex(b"cmac ")]


def timeless(text):
    return TIME.sub("TIME", text)


def main(tests, names):
    """runs each test, or those named; the status is 0 only where all pass"""
    failed = len(set(names) - {test.__name__ for test in tests})
    for test in tests:
        if names and test.__name__ not in names:
            continue
        try:
            print(test(), flush=True)
        except Failed as fault:
            failed += 1
            print(f"FAILED: {test.__name__}: {fault}", flush=True)
    return 1 if failed else 0
