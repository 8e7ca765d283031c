# How to build, run, test and measure the clerk's office. It needs `rt`, the command of the Rattle kit, on the PATH,
# and Python 3.8 or later. `make help` lists what there is.

DOCKET   := crates/docket/out/docket
OFFICE   := crates/clerk_office/out/clerk_office
EXAMPLE  := examples/smallest.txt
# Below which folder `make install` puts the programs, and before which folder that is where a package is made.
PREFIX   := /usr/local
DESTDIR  :=

# The checks beside the gate, each named as its script. checks/run.py has the list: what each shows and needs.
CHECKS   := $(shell python3 checks/run.py --names)
# Of the checks that make their inputs at random: from which seed, and how many. The default is the script's own.
SEED     :=
COUNT    :=

.PHONY: build try run docket install dist manual test times bench bench-desk bench-size check check-long help $(CHECKS)

# Proves the clerk's program and the libraries below it, and builds it at $(OFFICE), with a line for each crate that is proved.
# Where nothing has changed it proves nothing anew.
build:
	@python3 tools/prove.py clerk_office

# Runs the smallest example from the sources, with no proof: the answer to a first look.
try:
	@python3 tools/try.py clerk_office $(EXAMPLE)

run: build
	@$(OFFICE) < $(EXAMPLE)

# The program for people, proved and built at $(DOCKET): it keeps a docket in a folder, and writes what is due, and why.
docket:
	@python3 tools/prove.py docket

# Puts both programs, proved, their man pages and their completions below $(PREFIX). The two are proved side by side as far as
# they can be.
install:
	@python3 tools/prove.py docket clerk_office
	@install -Dm755 -t $(DESTDIR)$(PREFIX)/bin $(DOCKET) $(OFFICE)
	@find share -type f -exec install -Dm644 {} $(DESTDIR)$(PREFIX)/{} \;
	@echo "docket and clerk_office are in $(DESTDIR)$(PREFIX)/bin"

# An archive of both programs, proved, for a Linux without the kit: out/docket-VERSION-MACHINE-linux.tar.gz.
dist:
	@python3 tools/prove.py docket clerk_office
	@python3 tools/dist.py

# Writes the man pages and completions of share/ anew, as both programs say them, after a change of a help.
manual:
	@python3 tools/prove.py docket clerk_office
	@python3 tools/manual.py $(DOCKET) $(OFFICE)

# The gate, rt ci: proofs, edits that the prover must refuse, tests, and the programs' stored runs; and before its last
# line a table of the processor seconds that each crate took. Some kits leave out what an earlier run on this machine has
# passed for the same files.
test:
	@python3 tools/gate_times.py

# The same, with everything from nothing whatever the kit.
times:
	@python3 tools/gate_times.py --anew

bench: build
	@python3 bench/bench.py $(OFFICE)

# The desk, on the disk of this folder, beside a bare write and sync and beside SQLite.
bench-desk: docket
	@python3 bench/desk_bench.py $(DOCKET)

# How a district's docket grows, beside SQLite. DISTRICT is how large it is: bench/district.py has the options.
DISTRICT :=
bench-size: docket
	@python3 bench/size_bench.py $(DOCKET) $(DISTRICT)

check:
	@python3 checks/run.py --quick

check-long:
	@python3 checks/run.py --long

$(CHECKS):
	@python3 checks/run.py $@ $(if $(COUNT),$(or $(SEED),1) $(COUNT),$(SEED))

help:
	@echo "make             proves and builds the clerk's program, which is then $(OFFICE)"
	@echo "make try         runs $(EXAMPLE) from the sources in a minute or two, and proves nothing"
	@echo "make docket      proves and builds the program for people, which is then $(DOCKET)"
	@echo "make install     both, with man pages and completions, below PREFIX (/usr/local): make install PREFIX=\$$HOME/.local"
	@echo "make dist        an archive of both for a Linux without the kit, with the record of proof, in out/"
	@echo "make manual      writes man pages and completions anew, after a change of a help"
	@echo "make run         proves and builds the clerk's program, and runs it on $(EXAMPLE)"
	@echo "make test        the gate (rt ci): proves and tests everything, with a table of the seconds of each crate"
	@echo "make times       the gate from nothing, whatever an earlier run has passed"
	@echo "make bench       prints the program's rows per second and peak memory; it needs Linux"
	@echo "make bench-desk  the desk's rows per second and the time of one row, beside SQLite; it needs Linux"
	@echo "make bench-size  how long entering, opening and reports of a made district take, as it grows, beside SQLite; it needs Linux"
	@echo "make check       all quick checks beside the gate"
	@echo "make check-long  the long ones"
	@echo "Each check by itself, and about how long it takes:"
	@python3 checks/run.py --help-lines
	@echo "SEED=2 COUNT=1000: for those that draw at random, another seed and another count."
