#!/bin/sh
# Two plug-ins on one lent state, every ordered pair in every way of loading: run.sh ARCHIVE DIRECTORY.
here=$(dirname "$0")
out=$2
sh "$here/build.sh" "$1" "$out" || { echo 'plugins: FAILED, not built'; exit 1; }
programs='plain rdynamic exporting harmful'
running=
for program in $programs; do
    "$out/$program" "$out" $(cat "$out/plugins") >"$out/$program.said" &
    running="$running $!"
done
failed=0
for one in $running; do wait "$one" || failed=1; done
for program in $programs; do
    grep '^plugins: ' "$out/$program.said"
    grep -q '^counts ' "$out/$program.said" || { echo "plugins: FAILED, the program $program did not end"; failed=1; }
    cat "$out/$program.said" >>"$out/said"
done
awk -v plugins="$(wc -l <"$out/plugins")" '
    $1 == "counts" { programs++; orders += $2; wrong += $3; frames += $4 }
    END {
        printf "plugins: %d orders of %d pairs in %d programs, with and without the recommended link line, must agree with the host alone, wrong: %d; %d answers compared\n",
            orders, plugins * plugins, programs, wrong, frames
    }' "$out/said"
# what the header's hiding is worth: without it every order in a program with other code under our names goes wrong
"$out/harmful" "$out" unhidden >"$out/unhidden.said"
noticed=$(grep -c ' [1-9][0-9]* calls taken by other code' "$out/unhidden.said")
if grep -q "^counts $noticed $noticed " "$out/unhidden.said"; then
    echo "plugins: with the calls not hidden, $noticed of $noticed orders in a program that exports our names are sent into its code"
else
    echo 'plugins: FAILED, calls that are not hidden go unnoticed'
    failed=1
fi
exit $failed
