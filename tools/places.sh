#!/bin/sh
# Counts, by one `grep` a row, the places in src/ that docs/DESIGN-PASS.md speaks of. Usage: sh tools/places.sh [FOLDER with crates/] [-v]
# -v prints the places too.
top=${1:-.}
cd "$top" || exit 1
row() { # name, pattern, and what to leave out
    found=$(grep -rnE --include=*.rt "$2" crates/*/src | grep -vE "^[^:]*:[0-9]*:\s*//" | grep -vE "${3:-^$}")
    count=$(printf '%s' "$found" | grep -c .)
    printf '%-58s %5d\n' "$1" "$count"
    if [ "$verbose" = -v ]; then printf '%s\n' "$found" | sed 's/^/    /'; fi
}
verbose=$2
row "1a a refusal as a number" 'Refused\(|refuse[d]?(_waits)?\(|(\b|\.)number: (u8|u32|usize),?$|\ba\.number\b|return [0-9]+;|NO_ROOM|NOT_SEATS' 'C answer'
row "1b a number that stands for none (34, 47, 127, 137)" '(==|!=|<=|>=|<|>|return|=>|\{|-> u8|: ) ?(34|47|127|137)\b' '0\.\.34|\[u8; ?(34|47)\]'
row "1c a yes or no beside the value that it is of" '^\s*(pub )?(has_[a-z]+|more|seven|there|found|known): bool,'
row "1d an enum or struct with a case for none or for refused" '^\s*(None|Nothing|Unknown|Refused|Bad|No[A-Z][a-z]+)(\(|,| \{)' 'NoReading|NoYaku|NoSuch'
row "2a four melds asked one by one" 'ms\[3\]|melds\[3\]|\(d[,)]|d\.renamed'
row "2b functions alike but for a name: count_, any_, check_, is_.._set" '^\s*(pub )?fn (count_(ryanmen|kanchan|penchan|shanpon|kans|concealed|triplets|sets|dragons|winds)|any_(ryanmen|penchan|kanchan|sequence)|is_(dragon|wind|honor)_set|holds_terminal(_or_honor)?|is_(chanta|junchan)|runs_of_number|sets_of_number|won_(on|beside)_pair|low_of|high_of|(tile|kind|source)_of)\b'
row "2c a program's step and run, once for each program" '^\s*fn (step|run)<'
row "3a while over an index" '^\s*while .*(<|<=|>) '
row "3b for over an index, with the index read back" 'for [a-z]+ in 0\.\.'
row "4a a yes or no, or a byte, made a number by hand" 'one_if\(|wide\(|bit_of\(|when\('
row "4b the lower, the higher or one of two by hand" '^\s*(pub )?fn (lower|low_of|high_of|pick|at_most_2000|at_least_30|one_of|byte_at|call_or_none|array_of)\b'
row "4c equality by hand" '^\s*(pub )?fn (same_[a-z]+|is_same[a-z_]*|level_number|kind_of|first_amount|second_amount)\b'
row "5a requires that counts are 34" 'requires.*length counts\.(now|old) ≡ 34'
row "5b requires that a hand has passed, that tiles are fair, that dora are few" 'requires.*(hand_check|Fair \(split|Fit h|AtMostForty)'
row "5c (h, s, w, opened) passed on together" '\(h, s, w, opened\)|h: structure::Hand[a-zA-Z]*,$'
row "6a a count beside an array" '^\s*pub (count|tiles|melds|pairs|kinds): (u8|usize|\[)'
row "7a a number that says which step to run" 'match (kind|number|step)\b|kind == [0-9]'
