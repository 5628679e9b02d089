# The host's library, through its C functions, against the model made of the original's vectors.
BOUNDARY = $(CARGO_WITH_LIBRARY) run --quiet --release --offline -p boundary --
# says why the target $@ is skipped, or goes on
BOUNDARY_SKIPPED = if ! command -v cargo >/dev/null 2>&1; then echo '$@: SKIPPED, there is no cargo on this machine'; \
	elif ! [ -f "$$JUMPERLOFT_ORIGINAL" ]; then echo "$@: SKIPPED, the original's text is not at $$JUMPERLOFT_ORIGINAL"

.PHONY: boundary soak-boundary soak-sequences soak-lengths soak-week bench bench-instructions

# known differences, the pool exhausted at each call, random sessions, every short sequence, lists of every noted length, walks kept open through many edits
boundary: host-library
	@$(BOUNDARY_SKIPPED); \
	else cd oracle && $(BOUNDARY) differences && $(BOUNDARY) exhaust && $(BOUNDARY) differential --frames 2000000 --seed 1 && $(BOUNDARY) sequences --calls 5 && \
	$(BOUNDARY) lengths --rounds 2 --seed 1 && $(BOUNDARY) week --edits 200000 --seed 1; fi

# random sessions at length: ten million frames
soak-boundary: host-library
	@$(BOUNDARY_SKIPPED); \
	else cd oracle && $(BOUNDARY) differential --frames 10000000 --seed $(SOAK_SEED); fi

# every sequence of six calls
soak-sequences: host-library
	@$(BOUNDARY_SKIPPED); \
	else cd oracle && $(BOUNDARY) sequences --calls 6; fi

# lists of every length where the shape changes
soak-lengths: host-library
	@$(BOUNDARY_SKIPPED); \
	else cd oracle && $(BOUNDARY) lengths --rounds 40 --seed $(SOAK_SEED); fi

# walks kept open through a hundred million edits of their lists
soak-week: host-library
	@$(BOUNDARY_SKIPPED); \
	else cd oracle && $(BOUNDARY) week --edits 100000000 --seed $(SOAK_SEED); fi

# sets im_rc to the option that names im-rc's library, or says that there is none
IM_RC_BUILT = mkdir -p target; im_rc=; \
	if (cd oracle/im_rc && cargo build --quiet --release --offline --target-dir ../target/im_rc) >target/im_rc.log 2>&1; \
	then im_rc='--im-rc target/im_rc/release/libim_rc_lists.so'; \
	else echo "$@: no figures of im-rc, which is built from Debian's librust-im-rc-dev; target/im_rc.log says more"; fi

# docs/SPEED.md's figures beside the original, printed as a table, and their plot
bench: host-library
	@$(BOUNDARY_SKIPPED); \
	else $(IM_RC_BUILT); cd oracle && $(BOUNDARY) bench ../docs/speed.svg $$im_rc; fi

# the same rows in instructions
bench-instructions: host-library
	@$(BOUNDARY_SKIPPED); \
	elif ! command -v valgrind >/dev/null 2>&1; then echo '$@: SKIPPED, there is no valgrind on this machine'; \
	else $(IM_RC_BUILT); cd oracle && $(BOUNDARY) instructions $$im_rc; fi
