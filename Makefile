.PHONY: demo garage install test bench soak cases faults shams pictures

# rustup puts rustc under the home directory.
export PATH := $(PATH):$(or $(CARGO_HOME),$(HOME)/.cargo)/bin

# A day in the yard, a C program over include/she.h and include/garage.h; and the foreman's morning, with his command.
demo: garage
	@gcc -std=c99 -O2 -Wall -Wextra -Iinclude demo/yard.c target/native/libshe.a target/native/libgarage.a -o target/native/yard
	@target/native/yard
	@sh demo/morning.sh

# The foreman's command, and a board to try it on, into target/native/. The libraries are proved before they are linked.
garage:
	@sh tools/needs.sh gcc:gcc
	@sh tools/native-archive.sh she
	@sh tools/native-archive.sh garage
	@sh tools/build-garage.sh

# The command with its manual page, and the headers and archives for programs of one's own. The board to try it on is no part of it.
PREFIX = /usr/local
install: garage
	@sh tools/install.sh "$(DESTDIR)$(PREFIX)"

# The gate.
test:
	@sh tools/needs.sh gcc:gcc g++:g++ nm:binutils rustc:rustc python3:python3 valgrind:valgrind clang:clang openssl:openssl \
		strace:strace man:man-db setarch:util-linux
	@sh tests/gate.sh

# Ours beside others', measured on this machine.
bench:
	@sh tools/needs.sh gcc:gcc nm:binutils /usr/include/bearssl.h:libbearssl-dev /usr/include/tomcrypt.h:libtomcrypt-dev >&2
	@sh tests/bench/bench.sh

# The library beside the second program, on random sequences, until it is stopped or they differ. SEED=n for a seed of one's own.
soak:
	@sh tools/needs.sh gcc:gcc rustc:rustc
	@sh tests/lockstep/soak.sh $(SEED)

# The proved programs: a tester's day of commands, and the published vectors.
cases:
	@sh tools/needs.sh
	@mkdir -p target
	@sh tools/build-program.sh cases vectors
	@sh tools/run-program.sh cases <crates/cases/stdin
	@sh tools/run-program.sh vectors <crates/vectors/stdin

# Whether the tests can fail: single faults in the place of the library, each of which the comparison must see, and in the foreman's
# command, each of which a test of it must see.
faults:
	@sh tools/needs.sh gcc:gcc rustc:rustc python3:python3 valgrind:valgrind openssl:openssl strace:strace man:man-db
	@python3 tests/wrong/faults.py
	@python3 tests/garage/faults.py

# Every wrong program of docs/PROMISES.md, and the twin of each that has one. CRATES="load she" for those of some crates.
shams:
	@sh tools/needs.sh python3:python3
	@python3 tests/wrong/shams.py $(CRATES)

# The drawings of the pages, from the files that they show.
pictures:
	@sh tools/needs.sh python3:python3
	@python3 tools/pictures.py
