#!/usr/bin/env bash
# What read_column says to wrong words and to broken streams. A refusal of the words ends with status 1, a message and the usage
# line; a fault of a page is printed, and the read goes on.
cd "$(dirname "$0")/.."
dir=$(mktemp -d)
trap 'rm -rf "$dir"' EXIT
good=crates/read_column/data/two_rows.pages
usage='usage: read_column FILE KIND optional|required CHUNK LIMIT'
failed=0

# refused MESSAGE WORDS..: status 1, nothing on standard output, the message and the usage line on the other
refused() {
    local message=$1
    shift
    local out status
    out=$(./read_column "$@" 2>"$dir/err")
    status=$?
    if [ "$status" -ne 1 ] || [ -n "$out" ] || [ "$(cat "$dir/err")" != "read_column: $message"$'\n'"$usage" ]; then
        echo "read_column $*: status $status, '$out', '$(cat "$dir/err")'"
        failed=1
    fi
}

# prints EXPECTED WORDS..: status 0 and these lines
prints() {
    local expected=$1
    shift
    local out status
    out=$(./read_column "$@" 2>&1)
    status=$?
    if [ "$status" -ne 0 ] || [ "$out" != "$expected" ]; then
        echo "read_column $*: status $status, '$out'"
        failed=1
    fi
}

refused 'five words are wanted'
refused 'five words are wanted' "$good" INT32 optional 1
refused 'five words are wanted' "$good" INT32 optional 1 10 more
refused 'the file cannot be read' "$dir/none" INT32 optional 1 10
refused 'KIND is none of BOOLEAN, INT32, INT64, FLOAT, DOUBLE, BYTE_ARRAY' "$good" int32 optional 1 10
refused 'columns of this KIND are not read yet: INT32 is' "$good" DOUBLE optional 1 10
refused 'the third word is neither optional nor required' "$good" INT32 Optional 1 10
refused 'CHUNK is no number from 1 to 65536' "$good" INT32 optional 0 10
refused 'CHUNK is no number from 1 to 65536' "$good" INT32 optional 65537 10
refused 'CHUNK is no number from 1 to 65536' "$good" INT32 optional one 10
refused 'LIMIT is no number from 0 to 4294967295' "$good" INT32 optional 1 4294967296

prints $'More\nChunk 1: [18]\nChunk 2: [null]\nEnd' "$good" INT32 optional 1 10
prints $'More\nChunk 1: [18, null]\nEnd' "$good" INT32 optional 2 10
prints $'More\nMore\nChunk 1: [18, null]\nEnd' "$good" INT32 optional 65536 10
prints $'More\nChunk 1: [18]\nEnd' "$good" INT32 optional 3 1
prints 'End' "$good" INT32 optional 1 0
prints $'Fault 5 (page) at delivery 1: the page\'s optional flag is not the column\'s\nEnd' "$good" INT32 required 1 10

# an encoding that is not read, then a cut stream
{ printf '\x50\x01\0\0\0\x05\0\x04\0\0\0\x07\0\0\0'; printf '\x50\x01\0\0\0\0\0\x04\0\0\0\x07\0\0\0'; printf '\x50\x01'; } > "$dir/mixed"
prints $'Fault 6 (page) at delivery 1: an encoding that is not read for this kind\nMore\nMore\nFault 3 (source) at delivery 3: the stream is cut short (source fault 2)\nChunk 1: [7]\nEnd' "$dir/mixed" INT32 required 5 10
: > "$dir/empty"
prints 'End' "$dir/empty" INT32 optional 1 10

exit "$failed"
