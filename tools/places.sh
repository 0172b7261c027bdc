#!/bin/sh
# Lists the places in the crates' sources that read like an older language, point by point: the search of docs/DESIGN-PASS.md.
# `tools/places.sh` counts, `tools/places.sh -l` lists. It goes by words, and what it finds is then read.
cd "$(dirname "$0")/.." || exit 1
list=${1:-}

point() {
    found=$(find crates -path '*/src/*.rt' -not -path '*/out/*' -not -path '*/target/*' | sort | xargs grep -nHE "$2" | grep -vE '^[^:]*:[0-9]+: *//')
    echo "point $1: $(printf '%s' "$found" | grep -c .)"
    if [ "$list" = -l ]; then printf '%s\n\n' "$found"; fi
}

# 1. refusals in an Option and those who take them apart, success as a bool or an Option, a number for none or for a kind, a flag
point 1 'Option<Refusal|if let Some\(refusal\)|if !self\.send|mark: u8\) -> (bool|Option)|enum (Answer|LineError)|^ +(pub )?[a-z]+: bool,|=> 16,|return 0;|fn failures|fn number\('
# 2. functions and types of one shape, by their names
point 2 'fn (masked|with_later|is_mask_empty|is_mask_full|measure_refusal|write_byte|read_byte|high_byte|low_byte|put_cause|get_cause|reset_word|class_of|gap|reach|all_numbers|all_marks|no_words|one_number|two_numbers|play_i2c|play_window|done|word)\b|fn (down|up)\(rest|struct (HexByte|HexWord|Unfit|Unaddressed)|self\.supply = true|^        self\.supply$|fn (events|overrun)\(&self\).*[{]$'
# 3. loops that count or walk by hand
point 3 'for i in |for \(i, c\) in |\+= 1;|= left\.|^ +while |\[i\]'
# 4. conversion, comparison and printing written out, and types with no more derives than they must have
point 4 '^#\[derive\(Clone, Copy\)\]$|fn (name_of|worth|digit|same|word_of|bytes_of|high_byte|low_byte|at_register|done|word|is_window|on_window|worse_of)\(|fn write_[a-z]+\($|fn write_[a-z]+(<B: Bus>)?\(out|match u16::try_from|impl fmt::Display for (HexByte|HexWord|Mistake|Fault)| as (u8|u16|u32|usize)\b|(Ok\(\(\)\)|Ok\(word\)|Err\(refusal\)) =>'
# 5. a fact in the clauses of several functions, parameters that go together, what a clause sees only through a function
point 5 '(register|first) < 128|keeps: bool|supply: bool|(wired|traced|line_model) (\(|self|result|t\b)|(model|sofar) self\.|[( ]steps (Self\.Chart|B\.Chart)|B\.Bus\.steps B\.Chart|out: &mut String|heap: Global, rest'
# 6. parallel lists, lent memory that is read by index, a flag beside a buffer
point 6 '(calls: &\[Call\]|outcomes: &\[Outcome\]),$|marks\[|words\[|marked: bool|overrun: bool'
# 7. steps that are chosen by comparing names, and a choice of two things at once
point 7 'if same\(|match \(sheet'
