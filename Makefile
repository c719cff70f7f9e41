# make demo      judges the traces of examples/ by `tcapjudge test`, compiled without a proof: four minutes on four processors,
#                once for the same sources (dev/unproved.py)
# make quick     runs all tests that need the program and no proof, side by side, over the same unproved program: five minutes
#                from a fresh clone. At its end it says what that does not show
# make program   proves and builds the program, and prints where it lies
# make clib      proves and builds the library for programs in C, clib/out/libtcapjudge.a and .so, and compares what it and
#                its examples say with what the program prints, and where Eclipse Titan is installed the verdicts of its
#                example for TTCN-3
# make dist      packs the proved program, the library for C, the tools, their pages and the tables into out/dist, as
#                tcapjudge-VERSION-x86_64-linux.tar.gz and tcapjudge_VERSION_amd64.deb. Then it tests both (tests/dist.py)
# make install   puts the same files below PREFIX, by default /usr/local, and DESTDIR before that
# make dist-test installs, tries and removes the Debian package in a Debian that debootstrap makes: one to five minutes, as root. The gate
#                does not run it
# make test      the gate: all proofs, wrong bodies that have to be refused, the tests and runs of the program, with the seconds
#                of each part and its processor time. So many checks go side by side as there are processors, and 5 GB of free memory
#                for each; with RT_JOBS=N, N of them
# make edits     tries all edits of all crates, or of CRATES="NAME ..", over what is proved in a kept copy of the
#                repository; RT_JOBS=N has N go side by side
# make changed   proves and tests in that copy what changed since the commit BASE, by default origin/main, else HEAD~1
# make bench     prints how the time grows with the record, with the messages that are read as views, with an element
#                that is walked, and with the messages of a transaction that an end takes; how long `check` and `judge`
#                take beside `show`; how many records are judged in a second by 1, 2 and 4 processes; and how long lines of a
#                capture take beside tshark
# make memory    lets each allocation of a run fail in turn
# make attack    prints how the time grows with inputs that are made to be slow; ONLY="PART .." chooses some by their names
# make fuzz      runs the program over random and changed records, tables and certificates, for SECONDS, by default 60;
#                SEED, and CASE of it, give the same ones again
# make octets    runs it over messages that are cut, and over two with each octet set to each value: some minutes
.PHONY: demo quick program clib dist install dist-test test edits changed bench memory attack fuzz octets measured needs

PROGRAM = crates/tcapjudge/out/tcapjudge
SECONDS = 60
PREFIX = /usr/local

demo: needs
	@python3 dev/demo.py

quick: needs
	@python3 dev/quick.py

program: needs
	@echo "Proves what is not yet proved: about an hour on a fresh clone"
	@log=$$(mktemp) && { (cd crates/tcapjudge && rt run -- --help) >"$$log" 2>&1 \
		|| { cat "$$log" >&2; rm -f "$$log"; exit 1; }; rm -f "$$log"; }
	@echo "The proved program is $(PROGRAM)"

clib: program
	@python3 dev/clib.py
	@python3 tests/titan.py

dist: clib
	@python3 dev/dist.py
	@SOURCE_DATE_EPOCH=$${SOURCE_DATE_EPOCH:-$$(git log -1 --format=%ct)} python3 tests/dist.py out/dist

install: clib
	@python3 dev/dist.py --install "$(DESTDIR)$(PREFIX)"

dist-test:
	@python3 dev/dist_test.py

test: needs
	@python3 dev/gate.py

edits: needs
	@python3 dev/edits.py $(CRATES)

changed: needs
	@python3 dev/changed.py $(BASE)

bench: measured
	@python3 bench/linear.py
	@python3 bench/judging.py
	@python3 bench/many.py
	@python3 bench/captures.py

memory: measured
	@python3 bench/memory.py

attack: program
	@python3 bench/attack.py $(ONLY)

fuzz: program
	@python3 tests/fuzz.py $(SECONDS) $(SEED) $(CASE)

octets: program
	@python3 tests/octets.py

measured: program
	@log=$$(mktemp) && { (cd crates/tcap_bench && rt run <stdin && cd ../tcap_rule_vectors && rt run <stdin) >"$$log" 2>&1 \
		|| { cat "$$log" >&2; rm -f "$$log"; exit 1; }; rm -f "$$log"; }

needs:
	@for tool in rt python3; do command -v $$tool >/dev/null || { echo "missing: $$tool" >&2; exit 2; }; done
