#!/usr/bin/env bash
# Counts the places in crates/*/src of which docs/DESIGN-PASS.md speaks, point by point. With a word it lists those of that count.
# Usage, at the top of the repository: bash tools/count_places.sh [COUNT]
set -euo pipefail
shopt -s nullglob

# the lines of code that match, without comments and clauses
lines() {
    grep -rnE "$1" crates/*/src --include=*.rt | grep -vE '^[^:]+:[0-9]+: *(//|requires|ensures|ghost)' || true
}

# a let-else that only hands a refusal on
hands_on() {
    grep -rnE -A1 'let .* else \{$' crates/*/src --include=*.rt | grep -E 'return (None|false|Err\(.*\));' || true
}

# clauses that stand in three or more contracts, each with how often
repeated() {
    grep -rhE '^ *(requires|ensures)' crates/*/src --include=*.rt |
        sed -E 's/^ *(requires|ensures) *[a-z_]* *\{ *(.*) *\}.*$/\1 \2/' | sort | uniq -c | sort -rn | awk '$1 >= 3' || true
}

# functions of one name in two files or more, but for the functions of traits and main
names() {
    grep -rE '^ *(pub |pub\(crate\) )?fn \w+' crates/*/src --include=*.rt |
        sed -E 's/^([^:]+):.*fn (\w+).*/\2 \1/' | sort -u | awk '{n[$1]++; f[$1] = f[$1] " " $2} END {for (k in n) if (n[k] > 1) print n[k], k, f[k]}' |
        grep -vE '^[0-9]+ (main|fmt|from|try_from|eq|before|scatter|kind|width|write|read|read_code|write_code|capacity|used|look|find|append|find_or_append|cut|gather|recall|tell|forget|default|fit_out) ' | sort -k2 || true
}

answers() {
    find crates/*/proofs -name Answers.antt -exec grep -hE '^pub ' {} + || true
}

declare -A counts=(
    [1-arms]="lines '^[^/]*\b(Ok|Err|Some|None)(\(\w*\))? => (return )?(Ok|Err|Some|None|true|false|Reply::Refused)\b'"
    [1-let_else]="hands_on"
    [1-refusals]="lines 'Refused\(u8\)|number: u8|: u8 = 18|fn (refusal|number|detail)\(self\)|\.refusal\(\)|fault\.number\(\)'"
    [1-kinds]="lines '\b(state|rule): u(8|32),|\brule: u(8|32)\b|const [A-Z_]+: u32 = [01];'"
    [1-flags]="lines '^ +(pub |pub\(crate\) )?\w+: bool,'"
    [2-names]="names"
    [2-consts]="lines '(^| )const (LONGEST|LONGEST_CODE|BY_LABEL|BY_ZERO|BY_ONE|UNMARKED|MARKED|BLANK_PLACE|OLD_PLACE|VERSION)\b'"
    [2-errors]="lines '^pub struct (Full|Short\w*|TooShort);'"
    [3-loops]="lines '^ *(while [^l]|for \w+ in [^{]*\.\.|for \(\w+, \w+\) in .*enumerate)'"
    [4-by_hand]="lines 'fn (from_\w+|to_\w+|same\w*|place_of|tally_in|of_\w+|read_kind|number|detail|refusal|is_word|number_or\w*|vertex_or\w*|yes_or\w*)\('"
    [4-impls]="lines '^impl.* (PartialEq|Eq|PartialOrd|Ord|Clone|Copy|Default|fmt::Display) for '"
    [5-clauses]="repeated"
    [6-lengths]="lines '\b(held|height|depth|used|met|turns|length): (usize|u32)\b'"
    [6-links]="lines '\bnext: u32\b|\bheads: &'"
    [7-steps]="lines 'match (change|word|turn|task|stage|frame|call|command|state\.turn|frame\.stage)\b|: \[\w+; [0-9]+\] = \['"
    [8-answers]="answers"
)

for name in $(printf '%s\n' "${!counts[@]}" | sort); do
    if [ $# = 0 ]; then
        echo "$name $(eval "${counts[$name]}" | wc -l)"
    elif [ "$1" = "$name" ]; then
        eval "${counts[$name]}"
    fi
done
