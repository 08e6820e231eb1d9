#!/usr/bin/env bash
# Counts in src/ the places that docs/DESIGN-PASS.md speaks of: tools/design_places.sh [COMMIT] [-l]. With -l the lines too.
set -u
cd "$(git rev-parse --show-toplevel)" || exit 1
commit=${1:-HEAD}
list=${2:-}
count() { # name, pattern
  local found
  found=$(git grep -nE "$2" "$commit" -- 'crates/*/src/*.rt' | sed 's/^[^:]*:crates\///')
  printf '%-44s %s\n' "$1" "$(printf '%s' "$found" | grep -c .)"
  [ "$list" = -l ] && [ -n "$found" ] && printf '%s\n' "$found" | sed 's/^/    /'
}
count '1 own enums'                       '^(pub(\([a-z]+\))? )?enum '
count '1 sections as literals'            '(\.count|\.byte|row_stays|typed::<[^(]*>)\(([a-z]+, )?[0-9]|take_section::<[A-Z_]+>\([a-z]+, [0-9]|try_section::<[^(]*>\(sheet, [0-9]|section == [0-9]'
count '1 sections by number'              'section: usize'
count '1 arms on literal numbers'         '^ +[0-9]+ (if .*)?=> '
count '1 refusals as numbers'             '\(u8, usize\)|number: u8,$|pub question: usize'
count '1 a number for none'               'PLACES$|; 0 where|0 where (it|the|there)|        component: 0,'
count '2 functions by the type of the row' '^ *(pub(\([a-z]+\))? )?fn (component|element|event|node|flow|connection|transition|setting|question)(<|\()'
count '2 row lengths at calls'            '::<[A-Z]+_BYTES'
count '2 tests that are always true'      'fn (names_right|clash_free|rests_right)\(self, _sheet'
count '3 while loops'                     '^ *while '
count '3 ranges with a body'              '^ *for .* in .*\.\.'
count '3 indices by a loop variable'      '\[(i|n|p|e|place|count|self\.filled)\]'
count '4 derives without equality'        'derive\(Clone, Copy\)\]'
count '4 conversions and words by hand'   'fn (refusal_number|refused_line|line_of_refusal|text_of_refusal|reply_text|text_of_reason|step_said|answer_said|byte_said|refused|is_same|is_a_port|is_an_out_event|goes_out|is_same_reply|is_told_alike)(<|\()'
count '4 From, TryFrom, Display'          '^ *impl.* (From|TryFrom)<.*> for |^ *impl.*(fmt::Display) for '
count '5 a view that fits'                'requires.*Fit \('
count '5 the table of what nodes give'    'requires table'
count '5 the length of a table or bytes'  'requires (whole|long) \{ length'
count '5 a pile and a whole that fit'     'requires (pile|whole) '
count '6 a bound tested by hand'          '(if|&&|\|\|)? ?[a-z]+ (<|>=) [a-z.]+\.len\(\)|< PLACES|place < input'
count '6 an array with a count beside'    'numbers\[count\]|buffer\.get\(0\.\.len\)|pub (first|second|third): Option'
count '7 a trait with one loop'           'impl.* Lines for|impl.* Tried for'
