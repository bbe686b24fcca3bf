# The proved program, where `make build` and `make test` leave it.
program := crates/cnsd/out/cnsd

.PHONY: demo run install test build fuzz bench works profile wrong crash limits stress calls hostile guided format

# Runs the worked example by the program at hand, out/cnsd: the proved one where it is up to date, else an unproved build, made in a minute or two.
demo:
	@tests/demo.sh $(program)

# Runs an input of your own by the program at hand, as `make run INPUT=FILE ARGS='--journal FOLDER'`.
export INPUT
run:
	@if [ -z "$$INPUT" ]; then echo "usage: make run INPUT=FILE [ARGS='--workers N ..']" >&2; exit 2; fi; tests/run.sh $(program) "$$INPUT" $(ARGS)

# Sets up the program at hand under PREFIX (/usr/local), with its manual page and its completion for bash; DESTDIR is put before PREFIX.
export PREFIX DESTDIR
install:
	@install/install.sh $(program)

# Everything: each proof from nothing, the wrong bodies of the gate, the tests, the folders of cases.
test:
	@tests/all.sh $(program)

# Proves what the program stands on and builds it.
build:
	cd crates/cnsd && rt run -- --version

# Random inputs, good and hostile, against a second reading of the rules; SEED and COUNT may be given.
fuzz: build
	oracle/fuzz.py $(program) --seed $${SEED:-1} --count $${COUNT:-2000}

# Times and memory on large inputs, and the rates of the cell and of commits to a disk beside plain Rust.
bench: build
	bench/run.sh $(program)
	bench/cell.sh
	bench/workers.sh $(program)
	bench/journal.sh $(program)
	bench/collisions.sh $(program)

# Instructions on works that grow, and on hostile ones, beside those of plain Rust (needs valgrind); FULL=1 also runs them whole. PEERS=FOLDER
# runs the programs FOLDER/NAME/target/release/cnsd beside it, and CSV=FILE adds a line to a file for each run.
works: build
	bench/works.py $(program) $(if $(FULL),--full) $(if $(PEERS),--peers $(PEERS)) $(if $(CSV),--csv $(CSV))

# What these instructions go into, in parts of a hundred.
profile: build
	bench/profile.py $(program)

# All wrong bodies, each of which the proofs must refuse; of one crate by CRATE=NAME.
wrong:
	tests/wrong.py $(CRATE)

# Inputs at the limits of what the program takes.
limits: build
	tests/limits.sh $(program)

# Each call on the journals failed, and the program killed before and after it.
crash: build
	tests/crash.sh $(program)

# Inputs, journals and command lines that are meant to harm it, and what runs out; SEED, COUNT and LANES may be given.
hostile: build
	tests/hostile.sh $(program) --seed $${SEED:-1} --count $${COUNT:-100000} --lanes $${LANES:-1}

# Texts and journals that AFL++ leads by what they reach in an unproved build, FOR so many seconds each (600).
guided: build
	tests/guided.sh $(program) $${FOR:-600}

# Threads that race at the cell, checked from outside; SEED may be given.
stress:
	tests/stress.sh $${SEED:-}

# Calls of the nodes, of the keepers and of batches whose requests for memory are refused one by one, each given once more.
calls:
	tests/refuse_calls.sh

# Lays out all source, definitions and proofs.
format:
	@failed=''; for crate in crates/*/; do (cd "$$crate" && rt fmt) || failed="$$failed $$crate"; done; \
	if [ -n "$$failed" ]; then echo "rt fmt failed in$$failed" >&2; exit 1; fi
