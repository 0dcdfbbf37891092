#!/usr/bin/env bash
# Counts what docs/DESIGN-PASS.md counts, in the sources of the crates: tools/places.sh [COMMIT] [-v]. With -v each line found is printed.
set -euo pipefail
cd "$(git rev-parse --show-toplevel)"
commit='' verbose=''
for word in "$@"; do
    if [ "$word" = -v ]; then verbose=1; else commit=$word; fi
done
from=.
if [ -n "$commit" ]; then
    from=$(mktemp -d)
    trap 'rm -rf "$from"' EXIT
    git archive "$commit" crates | tar -x -C "$from"
fi
cd "$from"
sources=(crates/*/src/*.rt)

# count POINT WORDS PATTERN: the lines of code that match
count() {
    local lines
    lines=$(grep -nE "$3" "${sources[@]}" | grep -vE '^[^:]*:[0-9]+:[[:space:]]*//' || true)
    printf '%s  %-58s %3d\n' "$1" "$2" "$(printf '%s' "$lines" | grep -c . || true)"
    if [ -n "$verbose" ] && [ -n "$lines" ]; then printf '%s\n' "$lines" | sed 's/^/       /'; fi
}

count 1a 'enums' '^[[:space:]]*(pub )?enum [A-Z]'
count 1b 'flags and numbers of a case, as a field or a parameter' '\b(found|fault|slice|verdict|number|second|kind): (bool|u8|usize)\b'
count 1c 'functions that answer a number for a refusal, a kind or none' 'fn (passed|front|shape|kind|first|lowest|numerator|fixed|both|size|report)\b.*-> (u8|u64|usize)'
count 1d 'tests of such a number' '(fault|[^a-z]f) [!=]= 0|\.found\b|== 32 |< 32 \{|w < n|n == 0 \{|slice == 0'
count 2a 'byte to number, number to bytes, in functions of our own' 'fn (wide|index|low|word|little|eight|short|long|digit|digits|half|hexadecimal|put_decimal)\b'
count 2b 'the range of L' '1024 < len|len < 1\b|1\.\.=1024'
count 2c 'tests for 9, 10, 11 and 14' 'efus(e|ed|al)\(?(st, )?(::)?(9|10|11|14|Block|Present|Lost|NoPlan)\b'
count 3  'loops that are no for' '^[[:space:]]*(while|loop)\b'
count 4a 'equality, filling and copying by hand' 'fn (same_group|same_layout|clear|copy|fill|lay)\b'
count 4b 'conversion by hand' 'fn (say|name|note_numbers|plan_numbers|price_numbers|wide|index|low|up|up_byte)\b'
count 4c 'writing by hand, in functions of our own' 'fn (text|count|number|end|list|items|bytes|last|fraction|put[a-z_]*)\b'
count 5a 'contracts that ask for a given layout' 'requires.*\{ Given l \}'
count 5b 'contracts that ask for a length' 'requires.*length [a-z_.]+ (≡|≤) [0-9]+'
count 5c 'contracts that ask for a fact of linear, pieces, corrections, text' 'requires.*\{ (Survivors|Shape|Sources|Correctable|Asks|Room|HasRoom|Ready)\b'
count 6a 'fields that count what stands in an array beside them' '^[[:space:]]*(pub )?(count|reads|groups): usize,$'
count 6b 'parts and entries of a flat list, by a product' '\* (32|80|len|self\.len)\b'
count 7  'matches on a letter or a number of a step' 'match (letter|kind|j|f|fields::at)\b'
