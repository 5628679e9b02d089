# Two commands do everything from a fresh clone: `make run` and `make test`.
JUMPERLOFT_ORIGINAL ?= $(abspath ../shared/docs/src/src/vector/mod.rs)
export JUMPERLOFT_ORIGINAL
JUDGE = cargo run --quiet --release --offline -p judge --
SESSION = cargo run --quiet --release --offline -p session --
# for programs that link the host's library
CARGO_WITH_LIBRARY = JUMPERLOFT_HOST_LIBRARY='$(abspath $(BUILT_LIBRARY))' cargo
# `drive` holds it against the original where its text is at hand, and against its recorded answers where it isn't
WITH_ORIGINAL = $(if $(wildcard $(JUMPERLOFT_ORIGINAL)),--features original)
DRIVE = $(CARGO_WITH_LIBRARY) run --quiet --release --offline -p drive $(WITH_ORIGINAL) --
PROGRAM = target/bin/jumperloft
# rt run proves, compiles and runs it, here on no input
BUILD_PROGRAM = mkdir -p target/bin; (cd crates/jumperloft && rt run </dev/null) >target/program.log 2>&1 || { tail -20 target/program.log >&2; exit 1; }; cp crates/jumperloft/out/jumperloft $(PROGRAM)
# what `make run` feeds the program: document 01's example, or another file of lines
FRAMES ?= crates/jumperloft/stdin

# the library that hosts link; HOST_LIBRARY names one that is there already
HOST_LIBRARY ?=
BUILT_LIBRARY = $(or $(HOST_LIBRARY),target/staticlib/libhost.a)

# what the long runs are made from; each prints it, and the same seed gives the same run
SOAK_SEED ?= 2

.PHONY: run test built built-by-rt built-with-library kinds oracle drive program soak soak-audit bench-audit bench-program record

# prints the program's output alone
run:
	@$(BUILD_PROGRAM)
	@$(PROGRAM) <'$(FRAMES)'

# first the gate of rt ci, in which no edit may be bad; its last line is shown again at the end
test:
	@log=$$(mktemp) && trap 'rm -f "$$log"' EXIT && { rt ci 2>&1; echo $$? >"$$log.status"; } | tee "$$log" && [ "$$(cat "$$log.status"; rm "$$log.status")" = 0 ] && \
	tail -n 1 "$$log" | grep -qx '[0-9]* passed, 0 failed' && ! grep -q '^rt: ok.*, [1-9][0-9]* bad' "$$log" && \
	$(MAKE) --no-print-directory built && tail -n 1 "$$log"

# all that runs what is built, in two rows at a time; one has all that calls rt
built: host-library
	@$(MAKE) --no-print-directory -j2 --output-sync=recurse built-by-rt built-with-library

built-by-rt:
	@$(MAKE) --no-print-directory -j1 HOST_LIBRARY='$(BUILT_LIBRARY)' oracle kinds drive program

built-with-library:
	@$(MAKE) --no-print-directory -j1 HOST_LIBRARY='$(BUILT_LIBRARY)' boundary c-tests fuzz-short examples snippet rust-binding plugins

# a slot number for a node number does not compile
kinds:
	@sh tests/kinds_of_numbers.sh

# the original as judge of the definitions' formulas and of the recorded answers and sessions
oracle:
	@if ! command -v cargo >/dev/null 2>&1; then echo 'oracle: SKIPPED, there is no cargo on this machine'; \
	elif ! [ -f "$$JUMPERLOFT_ORIGINAL" ]; then echo "oracle: SKIPPED, the original's text is not at $$JUMPERLOFT_ORIGINAL"; \
	else cd oracle && cargo test --quiet --offline -p archery -p formulas -p frames -p judge -p session && $(JUDGE) costs && $(JUDGE) recorded recorded && $(SESSION) recorded recorded; fi

# the exported calls against the original or its recorded answers; the audit against a plain one over damaged states
drive: host-library
	@if ! command -v cargo >/dev/null 2>&1; then echo 'drive: SKIPPED, there is no cargo on this machine'; \
	else cd oracle && $(CARGO_WITH_LIBRARY) test --quiet --release --offline -p drive $(WITH_ORIGINAL) && $(DRIVE) edits && $(DRIVE) walks && $(DRIVE) compare && $(DRIVE) audit --states 200000 --seed 1; fi

# the program's answers to the recorded sessions, then all that `session program` tries, against the original
program:
	@$(BUILD_PROGRAM)
	@sh tests/recorded_sessions.sh
	@if ! command -v cargo >/dev/null 2>&1; then echo 'program: SKIPPED beyond the recorded sessions, there is no cargo on this machine'; \
	elif ! [ -f "$$JUMPERLOFT_ORIGINAL" ]; then echo "program: SKIPPED beyond the recorded sessions, the original's text is not at $$JUMPERLOFT_ORIGINAL"; \
	else cd oracle && $(SESSION) program ../$(PROGRAM); fi

# everything at length
soak: soak-audit soak-boundary soak-sequences soak-lengths soak-week

# two million damaged states
soak-audit: host-library
	@cd oracle && $(DRIVE) audit --states 2000000 --seed $(SOAK_SEED)

# the figures of docs/SPEED.md
bench-audit: host-library
	@cd oracle && $(DRIVE) bench-audit

bench-program:
	@$(BUILD_PROGRAM)
	@cd oracle && $(SESSION) mix 3000000 >../target/mix.lines && $(SESSION) bench ../$(PROGRAM) ../target/mix.lines

# writes the recorded answers and sessions anew
record: host-library
	@cd oracle && $(JUDGE) record recorded && $(SESSION) record recorded && $(DRIVE) record recorded

include make/c.mk make/rust.mk make/plugins.mk make/boundary.mk make/fuzz.mk
