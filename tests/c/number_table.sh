#!/bin/sh
# Every constant of the header against the table that the library's own code prints, both ways:
# number_table.sh HEADER TABLE FOLDER COMPILER WORDS..; what is compiled goes to the folder.
# The constants' names come from the header's text, so one that either side alone has is noticed.
cd "$(dirname "$0")/../.." || exit 1
header=$1
table=$2
folder=$3
shift 3
# not numbers of the library: the guard, what stands before a call, the advice on the stack
grep -o 'JUMPERLOFT1_[A-Z0-9_]*' "$header" | sort -u | grep -v -x -E 'JUMPERLOFT1_(H|CALL|STACK_SIZE)' |
    sed 's/JUMPERLOFT1_\(.*\)/{"\1", &},/' >"$folder/constants.inc"
"$@" -I"$folder" tests/c/number_table.c -o "$folder/number_table" && "$folder/number_table" "$table"
