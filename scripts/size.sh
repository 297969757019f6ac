#!/bin/sh
# Where a static library's text goes: of each function the bytes of code, of tables, and of both, largest first; and the sum, which must be what
# `size` says. A function that is not listed was worked into those that call it.
# usage: scripts/size.sh LIBRARY
library=$1
rows=$(size -A "$library" | awk '
    $2 !~ /^[0-9]+$/ || $2 == 0 || $1 ~ /^(Total|\.comment|\.note|\.data|\.bss)/ { next }
    {
        name = $1
        is_code = sub(/^\.text\./, "", name)
        sub(/^\.rodata\.(\.Lswitch\.table\.)?/, "", name)
        if (is_code) code[name] += $2
        else tables[name] += $2
        both[name] += $2
    }
    END { for (name in both) printf "%8d %8d %8d  %s\n", code[name], tables[name], both[name], name }' | sort -k3,3nr -k4)
sum=$(printf '%s\n' "$rows" | awk '{ sum += $3 } END { print sum + 0 }')
said=$(size "$library" | awk 'NR > 1 { text += $1 } END { print text + 0 }')

printf '%8s %8s %8s  %s\n' code tables both "of $(basename "$library"), in bytes"
printf '%s\n' "$rows"
printf '%26d  in all\n' "$sum"
[ "$sum" -eq "$said" ] && [ "$sum" -gt 0 ] || {
    echo "FAILED: $library has $said bytes of text" >&2
    exit 1
}
