#!/bin/sh
# The README's C snippet is the file that `make snippet` compiles; its Rust snippet is held by bindings/rust/tests/readme.rs.
cd "$(dirname "$0")/.." || exit 1
shown=$(mktemp)
trap 'rm -f "$shown"' EXIT
awk '/^```c$/ { on = 1; next } /^```$/ { on = 0 } on' README.md >"$shown"
diff docs/snippets/readme.c "$shown" && echo 'readme_snippets: the README shows docs/snippets/readme.c'
