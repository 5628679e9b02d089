# The same code in two plug-ins: every ordered pair in every way of loading, and what goes wrong where the calls are not hidden.
.PHONY: plugins

plugins: host-library
	@if ! command -v $(CC) >/dev/null 2>&1; then echo 'plugins: SKIPPED, there is no C compiler on this machine'; \
	else CC='$(CC)' sh tests/plugins/run.sh '$(BUILT_LIBRARY)' target/plugins; fi
