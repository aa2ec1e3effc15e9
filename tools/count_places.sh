#!/usr/bin/env bash
# Lists, for a commit (HEAD if none is given), the places in src/ that docs/DESIGN-PASS.md speaks of, a heading for each pattern.
set -eu
cd "$(dirname "$0")/.."
commit=${1:-HEAD}
places() {
    local name=$1 pattern=$2 found
    found=$(git grep -nE -e "$pattern" "$commit" -- 'crates/*/src/*' | sed "s/^$commit://" | grep -vE '^[^:]*:[0-9]*: *(//|ghost |requires|ensures)' || true)
    printf '%s: %s\n' "$name" "$(printf '%s' "$found" | grep -c . || true)"
    printf '%s\n' "$found" | sed '/^$/d; s/^/    /'
}
places '1a own enums' '^ *(pub(\(crate\))? )?enum '
places '1b an error by Option' 'Option<Refusal>'
places '1c a result taken apart and made again' 'Err\((_|refusal|unfinished)\) =>|is_err\(\)|if let Err\(|if let Some\(refusal\)|let Ok\(|return Err\(Refusal::WrongLength\)'
places '1d numbers for kinds' '(low|high|tag): u8|match self\.tag|next_field\(.*, [0-9], [0-9]\)'
places '1e a flag with a value beside it' '(when|accepted|in_range|rising|lengths|room): bool'
places '1f a number for nothing' 'else \{ 0 \}|!= 0 \{|=> 0,$|saturating_sub\(1\)|^    clause\.len\(\)$'
places '1g a number in place of no result' '\(\) -> u8$'
places '3a counters' '^ *(.[a-z]+: )?(for [a-z_]+ in .*\.\.|while |loop )'
places '3b loops that look for one item' '^ *for [a-z]+ in [a-z]+ \{$'
places '4a conversions' 'fn (new|past|number|byte|bytes|digit|variable|flipped|opened|sign|is_false|is_visible|fine|named|missing|facts_in|copied|facts|counted)\b'
places '4b printing' 'fn (write_[a-z]+|refused[a-z_]*|line|fmt)\b'
places '5a the heap and the file' 'heap: Global'
places '5b the place' '(place: &mut Place)'
places '5c lists of a record' '(needed|wanted|premises): &(.a )?\[u16\]'
places '5d a sign and where variables begin' 'positive: bool'
places '5e a state of facts' 'state: &(mut )?\[bool\]'
places '6 tables' '\[[a-z0-9]+; [A-Z_]+\]|: Vec<|ArrayVec<'
places '7 a switch on which step to run' 'positive: bool|when: bool|if positive'
