# A fuzzer at the boundary, guided by the blocks of the library's machine code that an input runs.
# make fuzz SECONDS=600; FUZZ_WORDS=--unreached lists the blocks that were not run, --blind shows what the guidance is worth.
FUZZ_CC ?= clang
FUZZ_OUT = target/fuzz
FUZZ_FLAGS = $(C_FLAGS) -g
SECONDS ?= 60
FUZZ_WORDS ?=
FUZZ_BUILD = sh tests/fuzz/build.sh '$(BUILT_LIBRARY)' $(FUZZ_OUT) '$(FUZZ_CC)' $(FUZZ_FLAGS) || { [ $$? -eq 77 ] && exit 0; exit 1; }

.PHONY: fuzz fuzz-short

fuzz: host-library
	@$(FUZZ_BUILD); sh tests/fuzz/run.sh $(FUZZ_OUT) '$(SECONDS)' $(FUZZ_WORDS)

# twenty seconds from the seeds alone, and that broken libraries are noticed
fuzz-short: FUZZ_OUT = target/fuzz_short
fuzz-short: host-library
	@rm -rf $(FUZZ_OUT)/corpus; $(FUZZ_BUILD); sh tests/fuzz/notices.sh $(FUZZ_OUT) '$(FUZZ_CC)' $(FUZZ_FLAGS) && \
	sh tests/fuzz/run.sh $(FUZZ_OUT) 20 -seed=1
