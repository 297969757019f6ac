#!/bin/sh
# Brings the lines that docs/READING.md cites, as `crate/folder/File.antt:12`, `name`, to where the name now stands.
# usage: scripts/cite.sh     (in the repository's root)
failed=0
page=docs/READING.md
grep -o '`[a-z]*/[A-Za-z_/]*\.antt:[0-9]*`, `[^`]*`' $page | tr -d '`,' | sort -u | {
    while read -r place name; do
        file=${place%:*}
        line=$(grep -nE "^ *((pub|abbrev|unfoldable|record|data) )*$name " "crates/$file" | head -n 1 | cut -d : -f 1)
        if [ -n "$line" ]; then
            sed -i "s|\`$place\`, \`$name\`|\`$file:$line\`, \`$name\`|" $page
        else
            echo "FAILED: crates/$file has no $name"
            failed=1
        fi
    done
    exit $failed
}
