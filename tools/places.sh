#!/usr/bin/env bash
# Lists the places in src/ that docs/DESIGN-PASS.md counts, by point: places.sh [TREE], where TREE is a checkout (this one if left out).
# The last lines are the counts. Test modules are left out.
set -uo pipefail
cd "${1:-$(dirname "$0")/..}/crates"
files=$(find . -path ./\*/out -prune -o -path '*/src/*.rt' ! -name tests.rt -print | sort)
counts=''

# place POINT WHAT PATTERN: the lines that the pattern finds
place() {
    local found n
    found=$(grep -nE -- "$3" $files | sed 's/^\.\///')
    n=$(printf '%s' "$found" | grep -c .)
    printf '== %s %s: %s\n%s\n' "$1" "$2" "$n" "$found"
    counts+="$1 $n $2"$'\n'
}

# after POINT WHAT PATTERN NEXT: the lines that the pattern finds, where NEXT finds the next line
after() {
    local found n
    found=$(grep -nE -A1 -- "$3" $files | grep -E -- "$4" | sed 's/^\.\///')
    n=$(printf '%s' "$found" | grep -c .)
    printf '== %s %s: %s\n%s\n' "$1" "$2" "$n" "$found"
    counts+="$1 $n $2"$'\n'
}

place 1 'errors passed on by a match' '(Err\([a-z]+\) => return|Err\([A-Za-z:()_]+\) => Err\(|if let Err\()'
after 1 'Options passed on by hand' '(let Some\(.*else \{|if .* != .*\{)$' 'return None;'
place 1 'flags beside a value' '^    pub(\(crate\))? [a-z_]+: bool'
place 1 'own enums with a case for success' '^pub(\(crate\))? enum Outcome\b'
place 1 'sentinels' '(= u32::MAX;|= 2 \* n \+ 1|None => 0,)'
place 1 'numbers for a switch' '(fn switched.*c: u32|\(&self, u: u32, v: u32, c: u32\)|if c == [01])'
place 2 'a value with the token behind it' 'struct (Part|Numeral|StateSet|NameList)\b'
place 2 'a token compared with one that is due' 'fn (joins_terms|joins_factors|ends_group|ends_label|is_word|is_mark|expect_word|expect_mark|expect_number|expect_token)\b'
place 2 'faults put together' '^ .*\bFault \{$'
place 2 'whether a step leads there' 'fn (is_step|leads)\b'
place 2 'limits said again' 'const (MOST_STATES|MOST_SIGNALS|MOST_TABLE_STATES|MOST_STATIONS|TABLE_CELLS|OUTSIDE)\b|\[0u16; 4_096\]'
place 2 'all letters, how many letters' 'fn (all_of|all_letters|letters_over|letters)\b'
place 2 'automata that watch a signal' 'pub struct (Again|Settles)\b'
place 2 'the readers and the programs' 'pub fn read\(table|^fn read\(rt|fn source_name\(|pub fn name\(self|fn refused_line\(|enum Source'
place 2 'fields of a table and a draft' '^    pub(\(crate\))? (starts|goods): u64'
place 2 'readers of one shape' 'fn (label|term)(<|\()|pub\(crate\) fn (state|count)<'
place 3 'while and loop' '^ *(while|loop) '
place 3 'ranges whose number is an index' 'for [a-z_]+ in [0-9a-z]+\.\.(count|shorter|signals|end|TABLE_CELLS|self\.states|automaton\.states\(\)|states|letters) '
place 4 'conversions by hand' 'fn (number|sign|mark_of|number_of)\((self|b:|answer)'
place 4 'equality by hand' 'fn (is_same|alike)\('
place 4 'printing by hand' 'fn (source_name|complaint_of|hex|hex_digit)\(|pub fn name\(self'
place 5 'a text and the token in hand' 'text: Text<.*head: |^    head: Placed'
place 5 'distances, parents and a queue' '^    (back_)?(distance|parent): &'
place 5 'what a table has, field by field' '(states|signals|starts|goods) ≡ [a-z.]*\.(states|signals|starts|goods)\) ×'
place 6 'an array with a count beside it' '\[&(.a )?\[u8\]; 4\]'
place 6 'a queue with its end beside it' '^    (end|sources): u32,'
place 7 'a switch on a kind' 'match (self|mark|source) \{'
printf '\n%s' "$counts"
