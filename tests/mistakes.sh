#!/usr/bin/env bash
# Whether each mistake of the must-fail edits is refused for itself, and over a fact: for every line `# refused: PLACE [LAW]` the check of the crate
# with that edit has an error in the proof of that function, or in that law of that file of proofs/, or finds no proof of what the function promises;
# an error that is only of something refused before it, or of a name that the edit took away, does not count. Where another mistake of the edit
# hides it, it is tried alone. No edit names one PLACE [LAW] twice: its mistakes are each in another function. The logs are
# target/must-fail/CRATE/EDIT.log, and EDIT.NUMBER.log of a mistake that was tried alone; each is made anew where what it was made from has changed.
# usage: tests/mistakes.sh [CRATE..]     (in the repository's root; JOBS crates at a time, or else one for each processor and 4 GB of free memory)
set -uo pipefail
work=$(mktemp -d) || exit 2
trap 'rm -rf "$work"' EXIT
mapfile -t all < <(sed 's/#.*//; s/[ :].*//; /^$/d' crates.txt)

# Each crate has a run of its own, in a copy of its own.
if (($# != 1)); then
    if (($# == 0)); then set -- "${all[@]}"; fi
    lanes=$(awk -v most="$(nproc)" '/^MemAvailable:/ { fit = int($2 / 4000000) + 1; print fit < most ? fit : most }' /proc/meminfo)
    for crate in "$@"; do if [ -d "crates/$crate/must-fail" ]; then echo "$crate"; fi; done | xargs -P "${JOBS:-$lanes}" -n 1 "$0" | tee "$work/said"
    status=$?
    looked=$(awk '/ mistakes looked up$/ { sum += $2 } END { print sum + 0 }' "$work/said")
    echo "mistakes refused each for itself: $looked looked up"
    [ "$looked" -gt 0 ] || exit 1
    exit $status
fi
crate=$1
failed=0 looked=0

# kept: the crates as they are now; tried: the copy in which edits are made and checked
kept=$work/kept tried=$work/tried

tell() {
    echo "FAILED: $edit $1"
    failed=1
}

# sources CRATE TO: copies what a check of the crate reads
sources() {
    local part
    mkdir -p "$2/crates/$1"
    for part in src specs proofs; do
        rm -rf "$2/crates/$1/$part"
        if [ -d "crates/$1/$part" ]; then cp -r "crates/$1/$part" "$2/crates/$1"; fi
    done
}

# change FILE OLD NEW: the one line of the file that has the old text gets the new one
change() {
    OLD=$2 NEW=$3 awk '
        BEGIN { old = ENVIRON["OLD"]; new = ENVIRON["NEW"] }
        (at = index($0, old)) > 0 { $0 = substr($0, 1, at - 1) new substr($0, at + length(old)); found++ }
        { print }
        END { exit found != 1 }' "$1" >"$work/text" && cp "$work/text" "$1"
}

# apply [NUMBER]: makes the edit's changes in the copy, or those of its mistake of that number alone
apply() {
    local line file='' old='' number=0 is_head=0
    (cd "$kept" && sources "$crate" "$tried")
    while IFS= read -r line; do
        case $line in
        '#'*)
            if ((is_head == 0)); then number=$((number + 1)); fi
            is_head=1
            continue
            ;;
        'file: '*) file=${line#file: } ;;
        'old: '*) old=${line#old: } ;;
        'new:'*)
            line=${line#new:}
            if [ -z "${1:-}" ] || [ "$1" = "$number" ]; then
                change "$tried/crates/$crate/$file" "$old" "${line# }" || return 1
            fi
            ;;
        esac
        is_head=0
    done <"$kept/$edit"
}

# check LOG [NUMBER]: sees to the log of the check with the edit, or with its mistake of that number alone
check() {
    local from said
    from="made from $below $(sha256sum <"$kept/$edit")"
    if [ -s "$1" ] && [ "$(tail -n 1 "$1")" = "$from" ]; then return 0; fi
    rm -f "$1"
    apply "${2:-}" || {
        tell "cannot be applied${2:+, its mistake $2}"
        return 1
    }
    # a check that was stopped, for want of memory say, is made once more
    for _ in 1 2; do
        (cd "$tried/crates/$crate" && rt check --jobs 1) >"$work/log" 2>&1
        said=$(sed -n "/^crate $crate: /,\$p" "$work/log" | grep '^logic=')
        if [ -n "$said" ]; then break; fi
    done
    if [[ $said != logic=not-proved* ]]; then
        tell "is not refused, or not checked${2:+, its mistake $2}: ${said:-$(grep error "$work/log" | head -n 1)}"
        return 1
    fi
    { cat "$work/log" && echo "$from"; } >"$1"
}

# is_refused LOG PLACE [LAW]: whether the log has an error there that counts
is_refused() {
    local place=$2 law=${3:-} found
    found=$(
        grep -asE "(^|/)proofs/$place(/(Answers|Invariants|Proof))?\.antt:[0-9]+:[0-9]+: error: \`${law:-[^\`]*}\`: " "$1" |
            grep -avE 'was not admitted|has no field|is not in scope|has no `'
        grep -asE "^fn $crate::${place//\//::}: no proof: expected answers" "$1" | grep -aF "${law:+\`$law\`}"
    )
    [ -n "$found" ]
}

mkdir "$kept" "$tried"
cp crates.txt "$kept"
cp crates.txt "$tried"
for name in "${all[@]}"; do
    sources "$name" "$kept"
    sources "$name" "$tried"
done
cp -r "crates/$crate/must-fail" "$kept/crates/$crate"
below=$({
    rt version
    awk -v wanted="$crate" -f scripts/below.awk crates.txt | while read -r name; do
        (cd "$kept" && find "crates/$name/src" "crates/$name/specs" "crates/$name/proofs" -type f -exec sha256sum {} + 2>/dev/null)
    done | sort
} | sha256sum)

for edit in "crates/$crate"/must-fail/*.edit; do
    logs=target/must-fail/$crate/$(basename "$edit" .edit)
    mkdir -p "$(dirname "$logs")"
    twice=$(sed -n 's/^# refused: //p' "$edit" | sort | uniq -d)
    [ -z "$twice" ] || tell "names a place twice: ${twice//$'\n'/, }"
    check "$logs.log" || continue
    number=0 is_head=0
    while IFS= read -r line; do
        if [[ $line != '#'* ]]; then
            is_head=0
            continue
        fi
        if ((is_head == 0)); then number=$((number + 1)); fi
        is_head=1
        [[ $line =~ ^'# refused: '([^ ]+)' '?(.*)$ ]] || continue
        place=${BASH_REMATCH[1]} law=${BASH_REMATCH[2]}
        looked=$((looked + 1))
        is_refused "$logs.log" "$place" "$law" ||
            { check "$logs.$number.log" "$number" && is_refused "$logs.$number.log" "$place" "$law"; } ||
            tell "is not refused in $place${law:+ $law}, its mistake $number"
    done <"$kept/$edit"
done
echo "$crate: $looked mistakes looked up"
[ "$looked" -gt 0 ] || failed=1
exit $failed
