# What a host in C gets: the library installed, examples, tests, the README's snippet.
PREFIX ?= /usr/local
DESTDIR ?=
CC ?= cc
CXX ?= c++
C_OUT = target/c
C_PREFIX = $(CURDIR)/$(C_OUT)/prefix
C_CHECKED = -Wall -Wextra -Wpedantic -Werror -Wshadow
C_FLAGS = -std=c11 -O2 $(C_CHECKED) -Wconversion
C_SANITIZED = -g -fsanitize=address,undefined -fno-sanitize-recover=all
C_PKG = PKG_CONFIG_PATH='$(C_PREFIX)/lib/pkgconfig' pkg-config
C_COMPILED = $$($(C_PKG) --cflags jumperloft)
C_LINKED = $$($(C_PKG) --cflags --libs jumperloft)
MISUSE = tests/c/misuse.c tests/c/refusals.c tests/c/damaged.c tests/c/forged.c tests/c/checks.c tests/c/guarded.c
# how many damaged states the slow runs lend
C_SHORT ?= 300
C_SEED ?= 1
# how many wrong headers are tried at a time
MUTANT_JOBS ?= 2

.PHONY: install host-library c-prefix header-tests c-examples examples c-tests snippet bench-table boundary-mutants header-mutants

host-library:
	@mkdir -p target
	@if [ -z '$(HOST_LIBRARY)' ]; then (cd crates/host_c && rt lib) >target/host.log 2>&1 || { tail -20 target/host.log; exit 1; }; \
	mkdir -p target/staticlib && cp crates/host_c/out/libhost_c.a target/staticlib/libhost.a; fi

install: host-library
	@sh make/install.sh '$(BUILT_LIBRARY)' '$(subst ','\'',$(PREFIX))' '$(subst ','\'',$(DESTDIR))'

# installed in target/, for the targets below
c-prefix:
	@$(MAKE) --no-print-directory install PREFIX='$(C_PREFIX)' DESTDIR= HOST_LIBRARY='$(HOST_LIBRARY)' >/dev/null

# what a wrong header in C_PREFIX is noticed by, with a C compiler alone
header-tests:
	@sh tests/c/number_table.sh '$(C_PREFIX)/include/jumperloft.h' crates/number_table/stdout $(C_OUT) $(CC) $(C_FLAGS) $(C_COMPILED)
	@$(CC) -std=c11 $(C_CHECKED) tests/c/header.c $(C_LINKED) -o $(C_OUT)/header_c && $(C_OUT)/header_c
	@$(CC) $(C_FLAGS) $(C_SANITIZED) tests/c/inline.c tests/c/noting.c tests/c/checks.c tests/c/guarded.c $(C_COMPILED) -o $(C_OUT)/inline && $(C_OUT)/inline
	@sh tests/c/symbols.sh '$(C_PREFIX)/lib/libjumperloft.a' $(C_OUT) $(CC) $(C_FLAGS) $(C_COMPILED)
	@$(CC) $(C_FLAGS) tests/c/replay.c $(C_LINKED) -o $(C_OUT)/replay && for lines in oracle/recorded/session-*.lines; do \
	$(C_OUT)/replay $$lines $${lines%.lines}.answers || exit 1; done

# a host and its plug-in, as examples/README.md compiles them; a forger in the plug-in's place
c-examples:
	@$(CC) $(C_FLAGS) examples/host.c $(C_LINKED) -ldl -o $(C_OUT)/host
	@$(CC) $(C_FLAGS) -shared -fPIC -fvisibility=hidden examples/plugin.c $(C_LINKED) -Wl,--exclude-libs,ALL -o $(C_OUT)/plugin.so
	@nm -D --defined-only $(C_OUT)/plugin.so | awk '{ print $$3 }' | sort >$(C_OUT)/exports
	@printf 'plugin_edit\nplugin_read\nplugin_write\n' | diff - $(C_OUT)/exports
	@for way in '' --lend; do $(C_OUT)/host $$way $(C_OUT)/plugin.so >$(C_OUT)/host.out && diff examples/host.expected $(C_OUT)/host.out || exit 1; done
	@echo 'examples: the host and its plug-in say what they should, with the state kept and lent, and the plug-in exports its own calls alone'
	@$(CC) $(C_FLAGS) -shared -fPIC -fvisibility=hidden tests/c/forger.c $(C_LINKED) -o $(C_OUT)/forger.so
	@$(C_OUT)/host $(C_OUT)/forger.so >$(C_OUT)/host.out && diff tests/c/forger.expected $(C_OUT)/host.out
	@echo 'examples: a plug-in that forges its party gets nowhere'
	@if $(C_OUT)/host ./no_such_plugin.so >$(C_OUT)/host.out 2>&1 || ! grep -q '^host: .*no_such_plugin.so' $(C_OUT)/host.out; then \
	echo "examples: FAILED, the loader's error is not printed"; exit 1; fi

# the plug-in in Rust too
examples: c-prefix
	@$(MAKE) --no-print-directory c-examples
	@if ! command -v cargo >/dev/null 2>&1; then echo 'examples: the plug-in in Rust SKIPPED, there is no cargo on this machine'; \
	else JUMPERLOFT_LIBRARY='$(abspath $(BUILT_LIBRARY))' \
	cargo build --quiet --release --offline --manifest-path examples/plugin_rust/Cargo.toml --target-dir $(C_OUT)/plugin_rust && \
	$(C_OUT)/host --lend $(C_OUT)/plugin_rust/release/libplugin_rust.so >$(C_OUT)/host.out && diff examples/host.expected $(C_OUT)/host.out && \
	echo 'examples: the plug-in in Rust makes the same of it'; fi

c-tests: c-prefix
	@$(MAKE) --no-print-directory header-tests
	@$(CXX) -x c++ -std=c++17 $(C_CHECKED) tests/c/header.c -x none $(C_LINKED) -o $(C_OUT)/header_cxx && $(C_OUT)/header_cxx
	@$(CC) $(C_FLAGS) tests/c/stack.c $(C_LINKED) -pthread -o $(C_OUT)/stack && $(C_OUT)/stack README.md include/jumperloft.h
	@mkdir -p $(C_OUT)/objects && for file in $(MISUSE); do \
	$(CC) $(C_FLAGS) -c $$file $(C_COMPILED) -o $(C_OUT)/objects/$$(basename $$file .c).o || exit 1; done
	@$(CC) $(C_OUT)/objects/*.o $(C_LINKED) -o $(C_OUT)/misuse && $(C_OUT)/misuse 20000 $(C_SEED)
	@sh tests/c/notices.sh $(C_OUT)/objects $(CC) $(C_FLAGS) $(C_LINKED)
	@echo 'c-tests: with the address and undefined behaviour sanitizers'
	@$(CC) $(C_FLAGS) $(C_SANITIZED) $(MISUSE) $(C_LINKED) -o $(C_OUT)/misuse_sanitized
	@$(C_OUT)/misuse_sanitized 20000 $(C_SEED)
	@if ! command -v valgrind >/dev/null 2>&1; then echo 'c-tests: valgrind SKIPPED, it is not on this machine'; \
	else echo 'c-tests: with valgrind' && valgrind --quiet --error-exitcode=1 --leak-check=full --max-stackframe=1048576 \
	$(C_OUT)/misuse $(C_SHORT) $(C_SEED); fi

# the README's snippet as a newcomer compiles it
snippet: host-library
	@sh tests/readme_snippets.sh
	@sh tests/installed_snippet.sh '$(MAKE)' '$(BUILT_LIBRARY)' $(CC) $(C_FLAGS)

# what the version table costs at the boundary
bench-table: c-prefix
	@$(CC) $(C_FLAGS) -D_POSIX_C_SOURCE=199309L tests/c/table_cost.c $(C_LINKED) -o $(C_OUT)/table_cost && $(C_OUT)/table_cost

# wrong headers and wrong bindings, by rule, all of which have to be noticed
boundary-mutants: header-mutants rust-mutants

# MUTANTS, a regular expression, chooses some
header-mutants: host-library
	@if ! command -v python3 >/dev/null 2>&1; then echo 'header-mutants: SKIPPED, there is no python3 on this machine'; \
	else python3 -B tests/mutants/header.py '$(MAKE)' '$(BUILT_LIBRARY)' target/mutants $(MUTANT_JOBS) $(if $(MUTANTS),'$(MUTANTS)'); fi
