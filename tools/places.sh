#!/usr/bin/env bash
# The places of docs/DESIGN-PASS.md, counted in a checkout: bash tools/places.sh [FOLDER] prints, for each point, its
# number, how many lines its search finds, and with -l the lines.
list=no
[ "${1:-}" = -l ] && { list=yes; shift; }
cd "${1:-.}" || exit 1

find_in() { # point, words for it, folders, pattern
    local lines
    lines=$(grep -rnE "$4" $3 --include=*.rt --include=*.antt | grep -vE ':[0-9]+: *(//|--)')
    printf '%-4s %4d  %s\n' "$1" "$(printf '%s' "$lines" | grep -c .)" "$2"
    [ $list = yes ] && [ -n "$lines" ] && printf '%s\n' "$lines" | sed 's/^/       /'
    return 0
}

src='crates/ber/src crates/components/src crates/facility/src crates/line/src crates/decode/src crates/cases/src'
proofs='crates/ber/proofs crates/components/proofs crates/facility/proofs crates/line/proofs crates/decode/proofs crates/cases/proofs'
find_in 1a 'a bare number for the error of a Result'             "$src" 'Result<[^;{]*, (u8|u16|usize)>'
find_in 1b 'a number for a kind, as a result or a parameter'     "$src" '\(u8, [A-Z]|\b(tag|code): (u8|i16)\b|fn (refused|worked_examples)\('
find_in 1c 'a flag with its value beside it'                     "$src" '\benum Content\b|Result<bool|\(bool, |: bool, .*: (&|Option|Vec)'
find_in 2  'functions and types that are twins, by their names'  "$src" 'fn (integer|integer_or_null|problem|at_most_one|answer|invoke|return_error|tell|standing|push_named|push_code|push_octets|push_number|push_signed|short_[a-z]+)\(|struct (Short|Message|Outbox)\b'
find_in 3  'loops that count, or go on by hand'                  "$src" '\bfor [a-z_(), ]+ in 0\.\.|\.enumerate\(\)|\bwhile |\bloop \{'
find_in 4a 'printing written by hand'                            "$src" 'fn ((push|write|print|show)_[a-z]+|hex_digit|layer_word)[<(]'
find_in 4b 'conversions written by hand'                         "$src" 'fn (number|code|operation_of|digit|is_short|problem|mistyped|rejection)\(|i8::from_be_bytes| as (usize|u8|u16)\b'
find_in 4c 'a struct made field by field where a function makes it' "$src" '\bFault \{$|\bFault \{ cause'
find_in 5a 'a fact that a function requires'                "$src" 'requires [a-z_]* ?\{'
find_in 5b 'parameters that go together'                         "$src" '\([^)]*: [^,)]*, [^)]*: [^,)]*, [^)]*: [^,)]*, |octets: &\[u8\], window: &mut Window|memory: &mut \[u8\], at: usize'
find_in 6  'an array of a fixed size, or a length in a field'    "$src" '\[[^]]*\]?; [0-9]+\]|^ *(pub )?(length|count|pos|end): usize'
find_in 7  'a choice of the step to run, by a value'             "$src" '\benum Act\b|match act\b'
find_in 8a 'answers'                                             "$proofs" '^pub [a-z_-]*(returns|requires|invariant_of|preserved|init|decreases|goes_on)[^ ]* : goal\.'
find_in 8b 'a contradiction spelled out'                         "$proofs" 'let no : ◌≡◌ \{A = ℕ\} 0 1'
find_in 8c 'lines of proofs'                                     "$proofs" '.'
