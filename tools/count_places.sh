#!/usr/bin/env bash
# Counts the places that docs/DESIGN-PASS.md speaks of, in a checkout of any commit. With -v it prints them too.
set -u
cd "$(git rev-parse --show-toplevel)" || exit 1

sources=$(git ls-files 'crates/*/src/*.rt')

count() {
    local found
    # shellcheck disable=SC2086
    found=$(grep -nE -- "$2" $sources)
    echo "$1: $(printf '%s' "$found" | grep -c '')"
    if [ "${shown:-}" ]; then printf '%s\n' "$found"; fi
}

[ "${1:-}" = -v ] && shown=1

count 1a '(place|charge_line|text_line): (usize|u8)\b|fn first_negative.*-> usize'
count 1b '-> Option<Fault>'
count 1c 'Ok\((\w+|\(\))\) => Ok\('
count 1d '=> [0-9]+,$'
count 1e '\((&self, )?\w+: bool'
count 1f 'fn write_\w+\(.*-> bool'
count 3a '\.enumerate\(\)'
count 3b 'for \w+ in 0\.\.|while '
count 3c '\+= 1;'
count 4a '^impl (Add|Sub)'
count 4b 'fn (same|number|name|units|of)\('
count 4c 'match market'
count 6 '\[[^];]+; (8|15|18|21|64|MOST_\w+|ROOM)\]'
count 7 'dyn |Box<|fn\('

echo "5a, the texts of requires clauses that stand three times or more:"
# shellcheck disable=SC2086
cat $sources | grep -oE 'requires( \w+)? \{.*\}' | sed -E 's/requires( \w+)? //; s/[«»]//g; s/\w+\.(now|old)/X/g' |
    sort | uniq -c | sort -rn | awk '$1 >= 3'

echo "5b, the pairs of parameter names that stand in three functions or more:"
# shellcheck disable=SC2086
cat $sources | tr '\n' ' ' | python3 -c '
import collections, itertools, re, sys
pairs = collections.Counter()
for found in re.finditer(r"fn \w+(?:<[^(]*>)?\(([^)]*)\)", sys.stdin.read()):
    named = sorted({p.split(":")[0].replace("mut ", "").strip(" &") for p in found[1].split(",") if ":" in p})
    pairs.update(itertools.combinations(named, 2))
for pair, times in pairs.most_common():
    if times >= 3:
        print(times, *pair)
'

echo "8a: $(git ls-files 'crates/*/proofs/*Answers.antt' | xargs cat | grep -c '^pub ')"
echo "8b: $(git ls-files 'crates/*/proofs/*.antt' | xargs cat | wc -l)"
