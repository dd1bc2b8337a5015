#!/bin/sh
# How many places docs/DESIGN-PASS.md counts, at a commit (default: HEAD).
cd "$(dirname "$0")/.." || exit 2
at=${1:-HEAD}
src() { git grep "$@" "$at" -- 'crates/*/src/*.rt'; }
count() { name=$1; shift; printf '%5d  %s\n' "$(src "$@" | wc -l)" "$name"; }
count '1a enums' -hE '^ *(pub )?enum '
count '1b lines with a number of a refusal' -hE 'refusal::[A-Z_]{2,}'
count '1c lines with a number of a kind, form or source' -hE \
    '\b(NULL|TRUE|FALSE|NUMBER|STRING|ARRAY|OBJECT|NO_TEXT|PLAIN_STRING|ESCAPED_STRING|TOKEN|NUMERAL|IN_DOCUMENT|IN_PATCH)\b'
count '3  while and loop' -hE '^\s*(while .*|loop) \{'
count '3  for' -hE '^\s*for '
count '4  return true; or return false;' -hE 'return (true|false);'
count '4  functions of the list' -hE "fn (least|minus|either|sum|room|limit|same_bytes|same_sign|same_power|is_digit|is_e\
|digit_value|is_blank|is_letter|is_nonzero_digit|minus_at|below_zero|still_plain|closing_bracket|opening_bracket\
|comma_length|is_test|is_makers|is_next|is_at|wide|long|narrow|but_one|say_number|say|put|put_two|put_three|put_four\
|hex_value|hex_digit)\\("
printf '%5d  5  requires that stand three times or more\n' "$(src -hE '^\s*requires' | sed 's/^ *//' | sort | uniq -c |
    awk '$1 >= 3 { n += $1 } END { print n + 0 }')"
count '7  function pointers and dyn' -hE ': *fn\(|dyn '
printf '%5d  8  answers that are a search by the ruleset alone\n' \
    "$(git grep -hE 'search auto' "$at" -- 'crates/*/proofs/*' | wc -l)"
printf '%5d  8  files of answers\n' "$(git ls-tree -r "$at" --name-only | grep -c 'proofs/.*/Answers\.antt$')"
