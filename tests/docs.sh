#!/bin/sh
# Whether the documents name what is there: places cited by line, theorems, definitions, functions, must-fail edits, decisions, crates, and refusals.
# usage: tests/docs.sh     (in the repository's root)
. tests/tell.sh

# `crate/folder/File.antt:12`, `name`: that line begins with the name, after the words that make it a definition.
grep -o '`[a-z]*/[A-Za-z_/]*\.antt:[0-9]*`, `[^`]*`' docs/READING.md | tr -d '`,' >"$work/cited"
while read -r place name; do
    file=crates/${place%:*}
    line=$(sed -n "${place##*:}p" "$file" | sed -E 's/^ *((pub|abbrev|unfoldable|record|data) )*//')
    case $line in
    "$name "*) ;;
    *) tell "$place is not $name" ;;
    esac
done <"$work/cited"
[ -s "$work/cited" ] || tell 'docs/READING.md cites no place'

# docs/PORT.md and docs/DESIGN-PASS.md also have names that were, and the kit's.
pages="README.md $(ls docs/*.md docs/manual/*.md | grep -vE '/(PORT|DESIGN-PASS).md$')"

# stated FOLDER: what the files in this folder of the crates define or prove
stated() {
    find crates/*/"$1" -name '*.antt' -exec sed -nE \
        "s/^ *((pub|abbrev|unfoldable|opaque|record|data) )*([A-Za-z][A-Za-z0-9_'-]*)( *(\{[^}]*\}|\([^)]*\)))* :( .*)?\$/\3/p" {} + | sort -u
}
stated specs >"$work/is-definitions"
stated proofs >"$work/is-theorems"
sed -nE 's/^ *(pub(\([a-z]+\))? )?((const )?fn |const |)([a-z][a-z0-9_]*)(<.*)?(\(|: ).*/\5/p' crates/*/src/*.rt | sort -u >"$work/is-functions"
for edit in crates/*/must-fail/*.edit; do basename "$edit" .edit; done | sort -u >"$work/is-edits"
grep -ohE '[a-z]+(_[a-z0-9]+)+' c/* | sort -u >"$work/is-c"
sed -nE 's/^([a-z_]+)( staticlib)?:.*/\1/p' crates.txt >"$work/crates"
sort -u "$work/crates" >"$work/is-crates"
sed -nE 's/^ *(pub )?fn ([a-z][a-z0-9_]*).*/\2/p' model/src/*.rs model/tests/*.rs compare/src/*.rs compare/src/*/*.rs compare/tests/*.rs | sort -u >"$work/is-tests"
sort -u "$work"/is-* >"$work/known"

# Each cell's heading, and a name that the cell has between backquotes, its arguments and its type left out.
awk '
    /^\|/ {
        if ($0 ~ /^\|[-|]*$/) { split(before, heads, " *\\| *"); in_table = 1; next }
        before = $0
        count = in_table ? split($0, cells, " *\\| *") : 0
        for (i = 2; i < count; i++)
            while (match(cells[i], /`[^`]*`/)) {
                name = substr(cells[i], RSTART + 1, RLENGTH - 2)
                cells[i] = substr(cells[i], RSTART + RLENGTH)
                sub(/\(.*/, "", name)
                sub(/.*::/, "", name)
                head = heads[i]
                sub(/ .*/, "", head)
                print head, name
            }
        next
    }
    { in_table = 0 }' $pages | sort -u >"$work/cells"

# column HEADING KIND..: the names of this form under this heading are all of one of these kinds
column() {
    heading=$1
    shift
    for kind in "$@"; do cat "$work/is-$kind"; done | sort -u >"$work/of-kind"
    sed -nE "s/^$heading ([A-Za-z][a-z0-9]*([_-][a-z0-9]+)*)\$/\1/p" "$work/cells" | sort -u >"$work/under"
    comm -23 "$work/under" "$work/of-kind" >"$work/absent"
    while read -r name; do tell "in a table under '$heading' is $name, which is none of the $*"; done <"$work/absent"
    echo "documents, $heading: $(wc -l <"$work/under") looked up"
}
column Theorem theorems
column Law theorems
column Definition definitions
column Function functions theorems definitions
column Call functions
column Method functions

# Everywhere else too a name of several words is one that is there; the log's words for a goal are the log's alone.
sed '/^| Crate | What is right/,/^$/s/[^|]*|$//' docs/PROMISES.md >"$work/promises"
grep -ohE '`([a-z][a-z0-9]*([_-][a-z0-9]+)+|[a-z]+[A-Z][A-Za-z]*)`' "$work/promises" $(printf '%s\n' $pages | grep -v PROMISES.md) |
    tr -d '`' | sort -u >"$work/names"
comm -23 "$work/names" "$work/known" >"$work/absent"
while read -r name; do tell "there is no $name"; done <"$work/absent"
cp "$work/names" "$work/left"
for kind in definitions theorems functions edits c tests; do
    comm -12 "$work/left" "$work/is-$kind" >"$work/$kind"
    comm -23 "$work/left" "$work/is-$kind" >"$work/rest"
    mv "$work/rest" "$work/left"
done

# A statement that docs/READING.md quotes stands so in a proof.
sed -n 's/^    \([a-z_]* : .*\)/\1/p' docs/READING.md >"$work/statements"
while read -r statement; do grep -rqxF -e "$statement" -e "pub $statement" crates/*/proofs || tell "no proof has the statement $statement"; done <"$work/statements"

# Every edit is named in docs/PROMISES.md, in brackets behind what it rules out, and nothing else is but a theorem.
grep -o '(`[a-z0-9_]*`\(, `[a-z0-9_]*`\)*)' docs/PROMISES.md | grep -o '[a-z0-9_]\{2,\}' | sort -u >"$work/named"
comm -23 "$work/is-edits" "$work/named" >"$work/unnamed"
sort -u "$work/is-edits" "$work/is-theorems" | comm -13 - "$work/named" >"$work/absent"
while read -r name; do tell "docs/PROMISES.md does not name the edit $name"; done <"$work/unnamed"
while read -r name; do tell "docs/PROMISES.md names $name, which is no edit and no theorem"; done <"$work/absent"

# Every decision that is cited by its number, there or in a source, stands in docs/DECISIONS.md; there a number in brackets cites one too.
sed -n 's/^\([0-9]*\)\. .*/\1/p' docs/DECISIONS.md | sort >"$work/decided"
{
    grep -rohE '(DECISIONS(\.md)?\)?|[Dd]ecisions?),? [0-9]+((, | and | to )[0-9]+)*' README.md docs c crates/*/src crates/*/specs crates/*/proofs \
        model/src model/tests compare/src
    grep -oE '\([1-9][0-9]*\)' docs/DECISIONS.md
} | grep -oE '[0-9]+' | sort -u >"$work/decisions"
comm -13 "$work/decided" "$work/decisions" >"$work/undecided"
while read -r number; do tell "decision $number is cited, and docs/DECISIONS.md has none of that number"; done <"$work/undecided"
[ -s "$work/decisions" ] || tell 'no decision is cited'

# The README's table has the crates of crates.txt, in their order.
sed -n 's/^| `\([a-z_]*\)` |.*/\1/p' README.md | cmp -s "$work/crates" - || tell "README.md's table does not have the crates of crates.txt"

# The refusals of the code, by number and name, are those of c/xga.h and of the manual's table.
sed -n 's/^ *\([A-Z][a-z]*\) = \([1-9][0-9]*\),$/\2 \1/p' crates/parts/src/refusals.rt | tr '[:lower:]' '[:upper:]' >"$work/refusals"
sed -n 's/^ *XGA_REFUSED_\([A-Z]*\) = \([0-9]*\).*/\2 \1/p' c/xga.h | cmp -s "$work/refusals" - || tell 'c/xga.h names other refusals than the code'
sed -n 's/^| \([0-9]*\) | `XGA_REFUSED_\([A-Z]*\)` |.*/\1 \2/p' docs/manual/refusals.md | cmp -s "$work/refusals" - ||
    tell 'docs/manual/refusals.md names other refusals than the code'
[ -s "$work/refusals" ] || tell 'the code has no refusals'

for kind in cited definitions theorems functions edits c tests statements decisions crates refusals; do
    echo "documents, $kind: $(wc -l <"$work/$kind") looked up"
done
exit $failed
