#!/bin/sh
# Counts, by patterns in src/, the places that an older form of the language could have left: tools/places.sh [-l] [COMMIT]
# prints a line for each pattern, and with -l the places too; with a commit, of that commit's files.
list=; [ "$1" = -l ] && { list=1; shift; }
commit=${1:-}
count() { # name, pattern
    if [ -n "$commit" ]; then found=$(git grep -nE "$2" "$commit" -- 'crates/*/src/*.rt' 'crates/*/src/**/*.rt' | sed "s/^$commit://")
    else found=$(git grep --untracked -nE "$2" -- 'crates/*/src/*.rt' 'crates/*/src/**/*.rt'); fi
    printf '%4d  %s\n' "$(printf '%s' "$found" | grep -c .)" "$1"
    [ -z "$list" ] || printf '%s\n' "$found" | sed 's/^/        /'
}
count '1a variants for nothing or a fault in enums of our own' '^    (Nothing|Fault\(u8\)|Refused\(.*\)),'
count '1b kinds and refusals as u8' '(sort|form|encoding): u8,|const F: u8|Fault\([0-9]\)|Source\(u8\)|fn (number|form_of|flag_of)\('
count '1c numbers for nothing' '^pub fn [a-z_]*\(\) -> u8'
count '1d refusals told by a bool' 'fn (extend_from_state|room)|\) -> bool$'
count '2a impls for one integer type each' '^impl.* for (i32|i64|u32|u64) \{|^impl Conversion<(i32|i64|u32|u64)>'
count '2b functions named for one width, constructor or source' 'fn (little_end|window|ones|ones_from|extend_required|push_values|extend_constant_bits|extend_from_slice_bits|whole_bytes|bytes_from|has_room|within|rows_in|run_length|current_len|plain_fits|entries_fit|append_optional|append_required|push_null|told|rows_text|row_text|flag_word|said|layer_name|meaning|print_fault|step|understand|first_command|part|number_at|first_number)\b'
count '2c pairs of arms for 4 and 8 bytes' 'Form::(Four|Eight) =>'
count '2d types declared more than once' 'pub struct Full;|pub struct Wanted|pub enum Mistake|pub enum (Piece|Current|Numbers|Run)\b'
count '2e constructors and types named for one column' '^pub (fn|type) (int32|int32_widen|int32_unsigned|int64|float|double|boolean|byte_array|Int32|Int32Widen|Int32Unsigned|Int64|Float|Double|Boolean|ByteArray|Holder4|Holder8|HolderBits|HolderBytes)\b'
count '3a for over a range' 'for [_a-z]+ in [0-9a-z(]+.*\.\.'
count '3b while' '^ *while '
count '3c index under a test' 'if (i|at|self\.index)[ a-z/0-9]* (<|>=) '
count '4a conversions and texts by hand' 'fn (kind|number|layer|layer_name|meaning|said|told|caused|named_kind|flag_word|conversion_of|flag_text|form_of|flag_of|understood|completed|decimal|chunk_word|print_fault)\b'
count '4b matches that pass a value on' '(None => None|Ok\(_\) => Ok|Err\(_\) => Err|Err\(e\) => Err|Err\(mistake\) => |Ok\(x\) => Ok)'
count '4c structs copied field by field' '^ *(size: n\.size|optional: self\.optional|form: self\.form|converts,)'
count '5a clauses on room and home of lent memory' 'ensures (memory|room|home|same|space|beyond) '
count '5b requires of a fact about one value' 'requires .*(dict_fine|is_some \((values_left|indices_left|dict_entries|plain_left)|Able )'
count '6a a length or place beside a buffer' '^    (pub )?(used|rows|length|at|index|end|left|n): u(size|32),'
count '7a switches on the form or the state' 'match (form|self\.current|\*values|f|known|awaits|piece|run|dict) \{'
