#!/bin/sh
# Runs the bench program on inputs that its stored sample does not have, and compares what it prints byte by byte.
# usage: tests/bench.sh [PROGRAM]     (in the repository's root, after `make bench` or `rt ci`; rt ci builds it by each of its two compilers)
program=${1:-crates/bench/out/bench}
if [ $# -eq 0 ] && [ -f "$program.by-rattle" ] && [ ! "$program.by-rattle" -ot "$program" ]; then
    "$0" "$program.by-rattle" || exit
fi
echo "$program:"
work=$(mktemp -d) || exit 2
trap 'rm -rf "$work"' EXIT
failed=0

# same NAME: whether $work/out is $work/expected
same() {
    if cmp -s "$work/expected" "$work/out"; then
        echo "ok: $1"
    else
        echo "FAILED: $1"
        diff "$work/expected" "$work/out" | head -5
        failed=1
    fi
}

# holds NAME: whether the program makes $work/expected of $work/in
holds() {
    "$program" <"$work/in" >"$work/out"
    same "$1"
}

# memory: 64 zero bytes, as the program prints them
memory() {
    for _ in 1 2 3 4; do
        echo '00 00 00 00 00 00 00 00 00 00 00 00 00 00 00 00'
    done
}

# case_of NAME INPUT ANSWERS: these answers, and the memory as it was
case_of() {
    printf '%b' "$2" >"$work/in"
    { printf '%b' "$3" && memory; } >"$work/expected"
    holds "$1"
}

# row N: a line of N bytes that begins with `r 1`, the rest blanks
row() {
    awk -v n="$1" 'BEGIN { line = "r 1"; while (length(line) < n) line = line " "; printf "%s", line }'
}

cp crates/bench/stdin "$work/in"
cp crates/bench/stdout "$work/expected"
holds 'the sample'

awk '{ printf "%s\r\n", $0 }' crates/bench/stdin >"$work/in"
holds 'the sample with CRLF'

tr 'a-zA-Z' 'A-Za-z' <crates/bench/stdin >"$work/in"
holds 'the sample with upper and lower case exchanged'

awk '{ gsub(/ /, "\t  "); printf " \t%s \n", $0 }' crates/bench/stdin >"$work/in"
holds 'the sample with more blanks and tabs'

printf '%s' "$(cat crates/bench/stdin)" >"$work/in"
holds 'the sample without its last newline'

awk 'NR == 1 || NR == 5 { print "" } NR == 9 { print " \t " } { print }' crates/bench/stdin >"$work/in"
holds 'the sample with blank lines'

awk '/^w/ { $4 = "F" substr("00000000", length($4) + 1) $4 } /^r 9/ { $2 = "4294967296" } { print }' crates/bench/stdin >"$work/in"
holds 'the sample with values and an allowance wider than 32 bits'

case_of 'no input' '' ''
case_of 'one newline' '\n' ''
case_of 'blank lines print nothing and are counted' '\n \t \r\nw 12 1 1\n\nx\n' 'ok 0\nline 5: not a call\n'
case_of 'a last line without newline' 'w 12 1 1\nr 1' 'ok 0\nok 0\n'
case_of 'a last line without newline that is neither' 'r 1\nr' 'ok 0\nline 2: not a call\n'
case_of 'upper and lower case' 'W 12 1 1\nw 1c 1 3\nW 1C 1 3\nR 5\nw 58 4 aAbBcCdD\n' 'ok 0\nok 0\nok 0\nok 0\nok 0\n'

case_of 'the largest numbers' 'r 4294967295\nw 58 4 FFFFFFFF\nw FFFFFFFF 1 0\nw 12 4294967295 0\n' 'ok 0\nok 0\nno 1\nno 1\n'
case_of 'offsets and lengths wider than 32 bits' 'w 100000012 1 0\nw 12 4294967297 0\nw 10000000000000012 18446744073709551617 0\n' 'no 1\nno 1\nno 1\n'
case_of 'values and allowances wider than 32 bits' 'w 58 4 100000000\nr 4294967296\nr 99999999999999999999999999\n' 'ok 0\nok 0\nok 0\n'
case_of 'leading zeros' 'r 00000000000000000000000000000000004294967295\nw 000000000012 0001 00000000000000001\n' 'ok 0\nok 0\n'

case_of 'lines that are neither' \
    'x\nw\nw 12\nw 12 1\nw 12 1 1 1\nr\nr 1 2\nww 12 1 1\nw12 1 1\nr -1\nr +1\nr 0x1\nr A\nw 12 A 1\nw G 1 1\nw 12 1 1h\nr 1;\n\0\nr\0 1\n\0r 1\n' \
    "$(for n in 1 2 3 4 5 6 7 8 9 10 11 12 13 14 15 16 17 18 19 20; do printf 'line %s: not a call\\n' "$n"; done)"
case_of 'a line that is neither changes nothing' 'w 12 1 1\nw 14 4 1 1\nw 18 4 70007\nw 1C 1 3\nw 7C 4 05018000\n' \
    'ok 0\nline 2: not a call\nok 0\nok 0\nok 0\n'

case_of 'refusals 1, 3, 4 and 5' 'w 13 2 0\nw 12 3 0\nw 80 1 0\nw 12 0 0\nw 10 1 0\nw 7C 4 0\nw 7C 4 05008000\n' \
    'no 1\nno 1\nno 1\nno 1\nno 3\nno 4\nno 5\n'
case_of 'refusal 6' 'w 12 1 1\nw 1C 1 3\nw 48 1 16\nw 7C 4 05018000\n' 'ok 0\nok 0\nok 0\nno 6\n'
case_of 'refusal 7' 'w 12 1 1\nw 1C 1 4\nw 7C 4 05018000\n' 'ok 0\nok 0\nno 7\n'
case_of 'refusal 8' 'w 12 1 1\nw 14 4 1\nw 18 4 70007\nw 1C 1 3\nw 7C 4 05018000\n' 'ok 0\nok 0\nok 0\nok 0\nno 8\n'
case_of 'refusal 2, until the drawing is done' 'w 12 1 1\nw 4A 1 0\nw 7C 4 05018000\nw 12 1 0\nr 0\nw 12 1 0\nr 7\nw 12 1 0\n' \
    'ok 0\nok 0\nok 0\nno 2\nok 0\nno 2\nok 1\nok 0\n'

# 02, 101: three pixels of 2 bits in Motorola order, copied into Intel order; pixel code 4 is refused with the order bit too
{
    printf 'w 12 1 1\nw 18 2 7\nw 1C 1 C\nw 48 1 3\nw 4A 1 4\nw 50 4 FF\nw 58 4 1\nw 60 2 2\nw 20 4 FFFFFFFF\n'
    printf 'w 7C 4 05018000\nw 1C 1 9\nw 7C 4 05018000\nr 9\n'
    printf 'w 12 1 2\nw 14 4 2\nw 18 2 7\nw 1C 1 1\nw 60 2 7\nw 78 4 0\nw 7C 4 28128000\nr 9\n'
} >"$work/in"
{
    for _ in 1 2 3 4 5 6 7 8 9; do echo 'ok 0'; done
    printf 'no 7\nok 0\nok 0\nok 3\nok 0\nok 0\nok 0\nok 0\nok 0\nok 0\nok 0\nok 8\n'
    echo '54 00 15 00 00 00 00 00 00 00 00 00 00 00 00 00'
    memory | tail -n 3
} >"$work/expected"
holds 'a line in one order, copied into the other'

# 02, 102: a leaf outlined by four codes in mode 11 and filled; a fill to the left is refused
{
    printf 'w 12 1 2\nw 18 4 70007\nw 12 1 1\nw 14 4 8\nw 18 4 60007\nw 1C 1 3\nw 48 1 6\nw 4A 1 4\nw 50 4 FF\nw 58 4 1\nw 78 4 3\n'
    printf 'w 7C 4 04028030\nw 2C 4 3373B3F3\nr 99\n'
    printf 'w 48 1 3\nw 49 1 5\nw 58 4 AA\nw 60 4 60007\nw 78 4 0\nw 7C 4 0A012004\nw 7C 4 0A012000\nr 10\nr 99\n'
} >"$work/in"
{
    for _ in 1 2 3 4 5 6 7 8 9 10 11 12 13; do echo 'ok 0'; done
    printf 'ok 16\nok 0\nok 0\nok 0\nok 0\nok 0\nno 5\nok 0\nok 10\nok 46\n'
    echo '00 14 22 41 22 14 00 00 00 00 00 00 00 00 00 00'
    echo '00 00 AA AA 00 00 00 00 00 AA AA AA AA 00 00 00'
    echo 'AA AA AA AA AA AA 00 00 00 AA AA AA AA 00 00 00'
    echo '00 00 AA AA 00 00 00 00 00 00 00 00 00 00 00 00'
} >"$work/expected"
holds 'a leaf, outlined and filled'

{ row 256; echo; row 257; echo; row 5000; echo; row 100000; echo; row 3; } >"$work/in"
{ printf 'ok 0\nline 2: not a call\nline 3: not a call\nline 4: not a call\nok 0\n' && memory; } >"$work/expected"
holds 'lines as long as the buffer, and longer'

{ awk 'BEGIN { for (i = 0; i < 300; i++) printf " " }'; echo; row 300; } >"$work/in"
{ printf 'line 1: not a call\nline 2: not a call\n' && memory; } >"$work/expected"
holds 'long lines of blanks, and one at the end without newline'

{ awk 'BEGIN { for (i = 0; i < 100000; i++) print "w 58 4 " i % 10 }'; echo x; } >"$work/in"
{ awk 'BEGIN { for (i = 0; i < 100000; i++) print "ok 0" }'; echo 'line 100001: not a call'; memory; } >"$work/expected"
holds '100,000 lines'

{ printf 'w 1'; sleep 0.2; printf '2 1 1\nr '; sleep 0.2; printf '7\n'; } | "$program" >"$work/out"
{ printf 'ok 0\nok 0\n' && memory; } >"$work/expected"
same 'a line that comes in pieces'

exit $failed
