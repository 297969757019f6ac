#!/bin/sh
# Whether rt refused each must-fail edit, and each says where: a line `# refused: PLACE [LAW]`, one for each mistake, names a function, the impl of a derived trait, or a file of
# proofs/ and a law in it. Whether each mistake is refused there, for itself and over a fact, is looked up by tests/mistakes.sh.
# usage: tests/edits.sh LOG     (in the repository's root; LOG is what `rt ci` or `rt must-fail` printed)
log=$1
. tests/tell.sh
edits=0
: >"$work/mistakes"

# derived CRATE PLACE: whether this is the impl of a trait that a type of the crate derives, as counters/CountersPartialEq
derived() {
    awk '/^#\[derive\(/ { gsub(/[^A-Za-z ]|derive/, " "); traits = $0; next }
        traits { name = $0; sub(/.*(struct|enum) /, "", name); sub(/[^A-Za-z].*/, "", name)
            n = split(traits, t, " "); for (i = 1; i <= n; i++) print name t[i]; traits = "" }' "crates/$1/src/${2%/*}.rt" 2>/dev/null | grep -qx "${2##*/}"
}

for edit in crates/*/must-fail/*.edit; do
    edits=$((edits + 1))
    crate=${edit#crates/}
    crate=${crate%%/*}
    sed -n 's/^# refused: //p' "$edit" | tee -a "$work/mistakes" >"$work/named"
    [ -s "$work/named" ] || tell "$edit does not say where it is refused"
    while read -r place law; do
        if [ ! -d "crates/$crate/proofs/$place" ] && [ ! -f "crates/$crate/proofs/$place.antt" ] &&
            ! grep -rqE "^ *(pub(\([a-z]+\))? )?(extern \"C\" )?fn ${place##*/}\b" "crates/$crate/src" && ! derived "$crate" "${place%/*}"; then
            tell "$edit names $place, which is no function and no file of proofs"
        fi
        if [ -n "$law" ] && [ -f "crates/$crate/proofs/$place.antt" ] && ! grep -qE "^ *((pub|abbrev|unfoldable) )*$law " "crates/$crate/proofs/$place.antt"; then
            tell "$edit names $place $law, where there is no such law"
        fi
    done <"$work/named"
    said=$(sed -n "s|^rt: must-fail $crate/${edit##*/}: ||p" "$log" | tail -n 1)
    case $said in
    'refused, as it must be: '*) ;;
    '') tell "$edit is not in $log" ;;
    *) tell "$edit: $said" ;;
    esac
done
echo "must-fail edits, of $(wc -l <"$work/mistakes") mistakes: $edits looked up"
[ "$edits" -gt 0 ] || failed=1
exit $failed
