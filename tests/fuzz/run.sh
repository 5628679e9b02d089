#!/bin/sh
# Fuzzes for so many seconds, from the seeds and from what earlier runs kept: run.sh DIRECTORY SECONDS WORDS..
# The words go to the fuzzer: --unreached, --blind, or libFuzzer's own.
out=$1
seconds=$2
shift 2
kept_before=$(ls "$out/corpus" | wc -l)
"$out/fuzz" -max_total_time="$seconds" -max_len=1024 -timeout=20 -keep_seed=1 -print_final_stats=1 \
    -artifact_prefix="$out/" "$@" "$out/corpus" "$out/seeds" >"$out/said" 2>&1
ended=$?
if [ $ended -ne 0 ]; then
    input=$(ls -t "$out"/crash-* "$out"/timeout-* "$out"/oom-* 2>/dev/null | head -n 1)
    grep -E -A 40 '^(WRONG|==[0-9]+== ?ERROR)' "$out/said" | head -n 60 | grep . || tail -n 5 "$out/said"
    echo "fuzz: FAILED, and this tells it again: $out/fuzz --print ${input:-(no input was kept, see $out/said)}"
    exit 1
fi
grep '^fuzz: ' "$out/said"
awk -v seconds="$seconds" -v before="$kept_before" -v kept="$(ls "$out/corpus" | wc -l)" '
    /^stat::number_of_executed_units:/ { inputs = $2 }
    END {
        printf "fuzz: %d inputs in %d seconds, %d more kept as new; no crash, and all that has to hold held\n",
            inputs, seconds, kept - before
    }' "$out/said"
