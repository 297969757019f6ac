# The crate `wanted` and all that it needs, each after those that it needs itself, as rt builds them.
# usage: awk -v wanted=NAME -f scripts/below.awk crates.txt
function visit(crate,    needs, count, i) {
    if (crate in told || !(crate in known)) return
    told[crate] = 1
    count = split(known[crate], needs, " ")
    for (i = 1; i <= count; i++) visit(needs[i])
    print crate
}
{ sub(/#.*/, "") }
split($0, line, ":") == 2 {
    split(line[1], words, " ")
    known[words[1]] = line[2]
}
END { visit(wanted) }
