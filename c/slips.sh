#!/bin/sh
# Shows that test.c notices every slip of slips.c: sh slips.sh LIBRARY [LINK ARGUMENTS]
set -eu
library=$1
shift
here=$(dirname "$0")
work=$(mktemp -d)
trap 'rm -rf "$work"' EXIT

searches="brute kmp bm sunday shiftand hybrid"
calls="$searches first bound bound_choice reasons to_products from_products products_meet read_sheet write_sheet report"
wraps=
for call in $calls; do wraps="$wraps -Wl,--wrap=breakwarp_$call"; done
# shellcheck disable=SC2086
cc -std=c11 -Wall -Wextra -Werror -o "$work/slips" "$here/test.c" "$here/slips.c" $wraps "$library" "$@"

# Without a slip the checks pass.
"$work/slips" >"$work/out"

noticed=0
try() {
    if BREAKWARP_SLIP="$1:$2" "$work/slips" >"$work/out"; then
        echo "slips: $1:$2 was not noticed"
        exit 1
    fi
    noticed=$((noticed + 1))
}

for call in $calls; do
    for slip in answer place; do try "$call" "$slip"; done
    # The report tells no place.
    [ "$call" = report ] || try "$call" no-place
    [ "$call" = products_meet ] && continue
    for slip in value before after tail refused input errno; do try "$call" "$slip"; done
done
for call in $searches; do
    for slip in value before after tail refused input; do try "$call-work" "$slip"; done
done
try first-text input
try first-scan value
for slip in value tail; do try first-none "$slip"; done
for slip in hits one-pass cut; do try bound "$slip"; done
try bound-text input
# The start that is handed on; whether 8 is asked where nothing is listed, and before 16; sets narrowed only once.
for slip in start start-32 start-wraps room-listed room-first one-pass; do try bound_choice "$slip"; done
try bound_choice-text input
try bound_choice-first value
for slip in tail before after; do try bound_choice-none "$slip"; done
# The start that is handed on, or none at all; whether 8 is asked where there is no hit, comes before 16, and leaves all alone.
for slip in start start-32 start-wraps window room-hit room-first room-fills; do try reasons "$slip"; done
# Other sets than those in common, sets that are not written, another order, another answer.
for slip in union lowest yes mark-any keeps first-empty hit-only backwards answers-hit; do try reasons "$slip"; done
try reasons-text input
try reasons-first value
for slip in value tail; do try reasons-none "$slip"; done
for call in read_sheet-pattern read_sheet-text read_sheet-sizes; do
    for slip in value before after tail refused; do try "$call" "$slip"; done
done
# Slips about the mark: taken for a letter, in the text or as a product; in the pattern; in the alphabet; in a bracket.
for call in $calls; do try "$call" mark; done
for call in $searches first bound bound_choice reasons read_sheet write_sheet report; do try "$call" mark-pattern; done
for call in read_sheet write_sheet report; do try "$call" mark-alphabet; done
for call in read_sheet report; do try "$call" mark-bracket; done
echo "slips: $noticed slips, all noticed"
