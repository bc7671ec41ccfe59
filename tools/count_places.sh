#!/bin/sh
# The places of docs/DESIGN-PASS.md in the sources at a commit (HEAD if none is named), a line for each pattern: its point, how many lines it finds, what it looks for.
cd "$(dirname "$0")/.." || exit 1
at=${1:-HEAD}

# The lines of the sources that a pattern finds.
places() {
    printf '%s %4d  %s\n' "$1" "$(git grep -hE "$3" "$at" -- 'crates/*/src/*.rt' | wc -l)" "$2"
}

places 1 'enums' '^(pub )?enum '
places 1 'fields and parameters of type bool' '^    (pub )?[a-z_]+: bool,$'
places 1 'comments that name a number for none' '(0|16|19|256|`count`|`other`|any number) (where|for a|says|if)|0 for none|0 where there are'
places 1 'constants for none' 'const (NONE|NO_BLOCK)\b'
places 1 'refusals as numbers' 'refusal: (&mut )?u32|Refused\(u32\)|number: u32\) -> Checked'
places 2 'functions on slices under one on arrays, by their comments' 'as slices|as a slice'
places 2 'functions that stand twice under one name or another' 'fn (excess|nothing|quiet|put_entries|push_entries|put_node|push_node|next_number|next|noise|noise_byte|fill_if|widen_if|pack_if|mark_if|put_top|put_levels)\('
places 2 'calls by value over calls on lent arrays' '^pub fn (format|mount|rebuild|insert|delete|look_up|commit|forecast|block_report)\(state'
places 3 'loops with while' '^ *while '
places 4 'bytes and digits taken out by division' '/ (256|65536|16777216|4294967296)'
places 4 'arms of a match on a stage' 'Stage::[A-Z][a-z]+ =>'
places 4 'wrapping sums by function' 'num::wrapping'
places 4 'functions that convert or compare' '^(pub )?fn (excess|wide|narrow|word|ones|number|part_in|part_word|presence|within|digit|digit_text|geometry_of|spare_byte|is_reset_value|put_mark)\('
places 5 'clauses that a geometry fits' 'Fits [a-z.]*geometry'
places 5 'clauses that an image is whole pages' 'length image\.(now|old) % page_size'
places 5 'parameters for the list lengths of the node table' '^    lens: &'
places 5 'parameters for its pages' '^    slots: &'
places 5 'parameters for a geometry' '^    geometry: Geometry,'
places 6 'lengths and counts beside an array' '^    (pub )?(len|count|pages|erases|unused): usize,$'
places 6 'keys beside values' '^    (pub )?keys: '
