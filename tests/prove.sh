#!/bin/sh
# Whether scripts/prove.sh tells of each crate on standard error alone, and where rt fails shows its words and fails too; rt is played here.
# usage: tests/prove.sh     (in the repository's root)
root=$PWD
work=$(mktemp -d) || exit 2
trap 'rm -rf "$work"' EXIT
failed=0

cat >"$work/rt" <<'RT'
#!/bin/sh
[ "${PWD##*/}" = roof ] || exit 9
play() {
    echo 'rt: chose --jobs 2 for walls'
    printf 'logic=pro'
    sleep 1.2
    echo 'ved functions=3'
    echo 'rt: chose --jobs 1 for roof'
    case $1 in
    check) echo 'logic=not-proved' && return 1 ;;
    *) echo 'logic=proved functions=1' ;;
    esac
}
case $1 in
run) play run >&2 && cat && echo 'the program' ;;
*) play "$1" ;;
esac
RT
chmod +x "$work/rt"
printf '# a house\nground:\nwalls: ground\nroof staticlib: walls io\ngarden: ground\n' >"$work/crates.txt"
mkdir -p "$work/scripts" "$work/crates/roof"
cp "$root/scripts/prove.sh" "$root/scripts/below.awk" "$work/scripts"
cd "$work" || exit 2

# case_of NAME VERB STATUS OUTPUT ERRORS: what the script answers and tells of `rt VERB` in roof, with any time for N
case_of() {
    echo 'some input' | PATH=$work:$PATH scripts/prove.sh "$2" roof >"$work/out" 2>"$work/told"
    status=$?
    sed 's/([0-9][0-9]* s)/(N s)/' "$work/told" >"$work/err"
    printf '%b' "$4" >"$work/expected-out"
    printf '%b' "$5" >"$work/expected-err"
    if [ "$status" = "$3" ] && cmp -s "$work/expected-out" "$work/out" && cmp -s "$work/expected-err" "$work/err"; then
        echo "ok: $1"
    else
        echo "FAILED: $1, status $status"
        cat "$work/out" "$work/err"
        failed=1
    fi
}

case_of 'crates that are proved' lib 0 '' 'proved walls (N s), 1 of 3 crates left\nproved roof (N s), 0 of 3 crates left\n'
case_of 'a program, without what it prints' run 0 '' 'proved walls (N s), 1 of 3 crates left\nproved roof (N s), 0 of 3 crates left\n'
case_of 'a crate that is not proved' check 1 \
    'rt: chose --jobs 2 for walls\nlogic=proved functions=3\nrt: chose --jobs 1 for roof\nlogic=not-proved\n' \
    'proved walls (N s), 1 of 3 crates left\n'
exit $failed
