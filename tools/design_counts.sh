#!/bin/bash
# Counts the places of each point of docs/DESIGN-PASS.md in the sources below it: `tools/design_counts.sh [FOLDER]`, the checkout by default.
cd "${1:-$(dirname "$0")/..}" || exit 1
src() { git ls-files crates | grep -E '^crates/[a-z_]+/src/.*\.rt$' | xargs -r cat; }
count() { printf '%-92s %s\n' "$1" "$(src | grep -vE '^\s*//' | grep -cE "$2")"; }

echo "1. Own enums, numbers for kinds and refusals"
count "enums of the shape of Option or Result (a variant of a payload beside End, Not, Broken, Bad, ..)" '^\s*(End|Not|Broken|Bad|BadText|Outside),$'
count "functions that answer a refusal's number, and what is made of it" 'fn (check\w*|short|or_else|past_number|refuse)\(|number: u32|return (1|2|3|11|12|13|14|15|16|17|18|19);|(refuse|or_else)\(|(early|number|lacks|refusal) (!=|==) 0'
count "directions as numbers" '\bd: u32|\.d (==|!=) [0-9]|\bd: [0-9]|(left|right|crack)\([0-9]\)|\([a-z.]+ \+ [123]\) % 4'
count "a flag with a value beside it" '^\s*(pub )?(past|merging): bool'
echo "2. Twins: read, not counted by a pattern; the page names them"
echo "3. Loops that count an index by hand"
count "while loops" '^\s*while '
echo "4. Written by hand: equality, conversion, copying, printing"
count "functions" '^\s*(pub )?fn (same|one|long|wide|four|gap|apart|higher|one_less|digit|numbers?|says?|say_all|text|title|column|bits|words_of|label|labels_of|colours_of|byte|word_at)\b'
count "wrapping arithmetic by a function's name" 'std::num::wrapping'
count "ids compared by their inside" '\.0 (==|!=) [a-z]+\.0'
echo "5. Facts in three contracts or more, parameters that travel together"
count "requires that the labels are a map's" 'requires [a-z_0-9]* ?\{ Map s labels\.(now|old) \}'
count "requires of the sides alone" 'requires [a-z_0-9]* ?\{ Sides s \}'
count "requires of a corner" 'requires [a-z_0-9]* ?\{ Corner s x y \}'
count "requires of so many planes of the work store" 'requires [a-z_0-9]* ?\{ [0-9] \* plane s\.width s\.height ≤ length work\.(now|old) \}'
count "clauses with a number for a name" '(requires|ensures) fact_[0-9]+'
