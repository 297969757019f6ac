#!/bin/sh
# Whether the exports of each static library are the library's public functions, each with the head and the clauses of its function, word for word
# and by the same imports, and with a call of it for a body; and whether c/xga.h declares those of `board`.
# usage: tests/exports.sh     (in the repository's root)
. tests/tell.sh

# functions FILE: for each public function a line with its name, its head and clauses without layout, and its body without layout
functions() {
    awk '
        /^pub (extern "C" )?fn / {
            sub(/extern "C" /, "")
            name = $3
            sub(/\(.*/, "", name)
            head = body = ""
            at = 1
        }
        at == 1 && $0 == "{" { at = 2; next }
        at == 2 && $0 == "}" {
            gsub(/[ \t]/, "", head)
            gsub(/,\)/, ")", head)
            gsub(/[ \t]/, "", body)
            print name, head, body
            at = 0
        }
        at == 1 { head = head $0 }
        at == 2 { body = body $0 }' "$1" | sort
}

# imports FILE: the paths of the names that its clauses use
imports() {
    sed -n 's/^ghost use //p' "$1" | tr -d ' ;}' | awk -F '[{]' '{ count = split($2, names, ","); for (i = 1; i <= count; i++) print $1 names[i] }' | sort
}

for name in $(sed -n 's/^\([a-z]*\)_c staticlib:.*/\1/p' crates.txt); do
    functions "crates/$name/src/lib.rt" >"$work/called"
    functions "crates/${name}_c/src/lib.rt" >"$work/exports"
    [ -s "$work/exports" ] || tell "crates/${name}_c has no exports"
    cut -d ' ' -f 1,2 "$work/called" >"$work/heads"
    cut -d ' ' -f 1,2 "$work/exports" | cmp -s "$work/heads" - || tell "the exports of crates/${name}_c do not have the heads and clauses of crates/$name"
    while read -r function head body; do
        parameters=$(printf '%s\n' "$head" | sed 's/^[^(]*(\([^)]*\)).*/\1/; s/:[^,]*//g')
        [ "$body" = "$name::$function($parameters)" ] || tell "$function of crates/${name}_c is no call of its function"
    done <"$work/exports"
    [ "$(grep -c '^#\[unsafe(no_mangle)\]$' "crates/${name}_c/src/lib.rt")" -eq "$(wc -l <"$work/exports")" ] ||
        tell "crates/${name}_c has other attributes than one for each export"
    imports "crates/$name/src/lib.rt" >"$work/allowed"
    imports "crates/${name}_c/src/lib.rt" | comm -13 "$work/allowed" - >"$work/others"
    while read -r path; do tell "crates/${name}_c imports $path, which crates/$name does not"; done <"$work/others"
    echo "exports of ${name}_c: $(wc -l <"$work/exports") looked up"
    if [ "$name" = board ]; then
        sed -n 's/^uint[0-9]*_t \([a-z_]*\)(.*);$/\1/p' c/xga.h | sort >"$work/declared"
        cut -d ' ' -f 1 "$work/exports" | cmp -s "$work/declared" - || tell "c/xga.h declares other functions than crates/${name}_c exports"
    fi
done
[ -s "$work/declared" ] || tell 'no library for C has the calls of board'
exit $failed
