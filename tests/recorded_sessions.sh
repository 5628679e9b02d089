#!/bin/sh
# The program's answers to the recorded sessions, byte for byte; needs no Rust.
cd "$(dirname "$0")/.." || exit 1
program=target/bin/jumperloft
[ -x "$program" ] || { echo "recorded_sessions: FAILED, there is no $program; make program makes it"; exit 1; }
answers=$(mktemp) || exit 1
trap 'rm -f "$answers"' EXIT

failed=0
for lines in oracle/recorded/session-*.lines; do
    session=$(basename "$lines" .lines)
    if ! "$program" <"$lines" >"$answers"; then
        echo "recorded_sessions: $session FAILED, the program ended with another code than 0"
        failed=1
    elif differs=$(cmp "$answers" "${lines%.lines}.answers" 2>&1); then
        echo "recorded_sessions: $session, $(wc -l <"$answers") answers are those recorded, byte for byte"
    else
        echo "recorded_sessions: $session FAILED, the program's answers against those recorded: $differs"
        failed=1
    fi
done
exit "$failed"
