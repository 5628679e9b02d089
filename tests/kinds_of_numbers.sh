#!/bin/sh
# A slot number where a node number is wanted must not compile: tried on a copy of crates/lookup.
cd "$(dirname "$0")/.." || exit 1
copy=$(mktemp -d) || exit 1
trap 'rm -rf "$copy"' EXIT
mkdir "$copy/crates"
for crate in meaning limits shape records lookup; do cp -R "crates/$crate" "$copy/crates/$crate"; done
grep -E '^(meaning|limits|shape|records|lookup):' crates.txt >"$copy/crates.txt"

mixed="$copy/crates/lookup/src/lib.rt"
sed -i 's/^use records::{NodeNo, Version};/use records::{NodeNo, SlotNo, Version};/; s/NodeNo(v\.root)/SlotNo(v.root)/' "$mixed"
grep -q 'SlotNo(v\.root)' "$mixed" || { echo 'kinds_of_numbers: the text to mix is not in crates/lookup'; exit 1; }

said=$( (cd "$copy/crates/lookup" && rt check) 2>&1)
if printf '%s\n' "$said" | grep -q 'error\[mismatched-types\].*NodeNo.*SlotNo'; then
    echo 'kinds_of_numbers: a slot number for a node number does not compile'
else
    echo 'kinds_of_numbers: FAILED, what the check said:'
    printf '%s\n' "$said" | tail -5
    exit 1
fi
