# From `objdump -d --no-show-raw-insn` of the library: an assembler table of where its blocks start.
# A block starts with a function, at the target of a jump, and after a jump or a return, where the targets of a jump table
# stand too. What only fills up to an alignment is no block, nor is ud2, which faults by itself.

function block_at(name, offset) {
    if (is_instruction[name, offset] && operation[name, offset] != "ud2") {
        is_block[name, offset] = 1
    }
}

function hexadecimal(digits,    i, value) {
    value = 0
    for (i = 1; i <= length(digits); i++) {
        value = 16 * value + index("0123456789abcdef", substr(digits, i, 1)) - 1
    }
    return value
}

/^[0-9a-f]+ <.*>:$/ {
    start = hexadecimal($1)
    now = substr($0, index($0, "<") + 1)
    sub(/>:$/, "", now)
    names[++functions] = now
    after_jump = 1
    next
}

/^ *[0-9a-f]+:\t/ {
    at = hexadecimal(substr($1, 1, length($1) - 1)) - start
    is_filler = $2 ~ /^(nop|data16|cs|xchg$|int3)/
    is_instruction[now, at] = 1
    operation[now, at] = $2
    offsets[now] = offsets[now] " " at
    if (after_jump && !is_filler) {
        starts[now, at] = 1
        after_jump = 0
    }
    if ($2 ~ /^j/ && match($0, /<[^>]*>/)) {
        target = substr($0, RSTART + 1, RLENGTH - 2)
        plus = match(target, /\+0x[0-9a-f]+$/)
        if (plus) {
            starts[substr(target, 1, plus - 1), hexadecimal(substr(target, plus + 3))] = 1
        } else {
            starts[target, 0] = 1
        }
    }
    if ($2 ~ /^(j|ret|ud2)/) {
        after_jump = 1
    }
}

END {
    for (key in starts) {
        split(key, parts, SUBSEP)
        block_at(parts[1], parts[2])
    }
    print "    .data\n    .balign 8\n    .globl blocks\nblocks:"
    for (i = 1; i <= functions; i++) {
        count = split(offsets[names[i]], all, " ")
        for (k = 1; k <= count; k++) {
            if (is_block[names[i], all[k]]) {
                printf "    .quad \"%s\"+%d, name_%d\n", names[i], all[k], i
                blocks++
            }
        }
    }
    print "    .globl block_count\nblock_count:\n    .quad " blocks
    print "    .section .rodata"
    for (i = 1; i <= functions; i++) {
        printf "name_%d: .asciz \"%s\"\n", i, names[i]
    }
    print "    .section __libfuzzer_extra_counters,\"aw\"\n    .balign 8\n    .globl block_counters\nblock_counters:"
    print "    .skip " int((blocks + 7) / 8) * 8
    print "    .section .note.GNU-stack,\"\",@progbits"
}
