# The Rust binding's tests, over the library that hosts link.
RUST_TEST = cd bindings/rust && JUMPERLOFT_LIBRARY='$(abspath $(BUILT_LIBRARY))'
RUST_MUTANTS ?=

.PHONY: rust-binding rust-mutants

rust-binding: host-library
	@if ! command -v cargo >/dev/null 2>&1; then echo 'rust-binding: SKIPPED, there is no cargo on this machine'; \
	else ($(RUST_TEST) cargo test --quiet --offline) && sh bindings/rust/tests/linking.sh '$(BUILT_LIBRARY)' target/rust_linking; fi
	@if command -v cargo >/dev/null 2>&1 && command -v valgrind >/dev/null 2>&1; then echo 'rust-binding: with valgrind' && \
	$(RUST_TEST) CARGO_TARGET_X86_64_UNKNOWN_LINUX_GNU_RUNNER='valgrind --quiet --error-exitcode=1 --max-stackframe=1048576' \
	cargo test --quiet --offline --test binding -- against_model limits; \
	else echo 'rust-binding: valgrind SKIPPED'; fi

# wrong bindings, made by rule, each of which the tests have to notice; RUST_MUTANTS='--only ffi.rs' tries those of one file
rust-mutants: host-library
	@if ! command -v cargo >/dev/null 2>&1; then echo 'rust-mutants: SKIPPED, there is no cargo on this machine'; \
	else python3 bindings/rust/mutants/run.py '$(BUILT_LIBRARY)' target/rust_mutants $(RUST_MUTANTS); fi
