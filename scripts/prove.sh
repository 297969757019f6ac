#!/usr/bin/env bash
# Runs rt in a crate's folder, and tells on standard error which crate is being proved, how many are left, and how long each took: on a terminal
# in one line that is rewritten, elsewhere in a line for each crate. What rt prints goes to target/NAME.log, and is shown if rt fails.
# usage: scripts/prove.sh check|lib|run NAME     (in the repository's root; run builds the program crates/NAME/out/NAME, and plays it on no input)
set -uo pipefail
verb=$1 name=$2 log=target/$2.log

# rewrite: the terminal's line, as things stand
rewrite() {
    if [ -t 2 ] && ((${#left[@]} > 0)); then
        printf '\r\033[Kproving %s: %s s; %s of %s crates left%s' "${left[0]}" $((SECONDS - since)) ${#left[@]} "$all" "$last" >&2
    fi
}

# begun CRATE: those before it are proved unchanged, and rt says nothing of them
begun() {
    while ((${#left[@]} > 0)) && [ "${left[0]}" != "$1" ]; do left=("${left[@]:1}"); done
    since=$SECONDS
}

# done_with_first: takes the first of those left out, and tells of it
done_with_first() {
    local took="$((SECONDS - since)) s"
    last="; ${left[0]} took $took"
    if [ ! -t 2 ]; then printf 'proved %s (%s), %s of %s crates left\n' "${left[0]}" "$took" $((${#left[@]} - 1)) "$all" >&2; fi
    left=("${left[@]:1}")
    since=$SECONDS
}

# heard LINE: what a line of rt tells
heard() {
    if [[ $1 =~ ^'rt: chose --jobs '[0-9]+' for '([a-z0-9_]+)$ ]]; then
        begun "${BASH_REMATCH[1]}"
    elif [[ $1 == 'logic=proved '* ]] && ((${#left[@]} > 0)); then
        done_with_first
    fi
}

# tell: tells of rt's lines as they come; a line may come in pieces
tell() {
    local piece line='' status since=$SECONDS last='' left all
    mapfile -t left < <(awk -v wanted="$name" -f scripts/below.awk crates.txt)
    all=${#left[@]}
    while rewrite; IFS= read -r -t 1 piece; status=$?; ((status == 0 || status > 128)); do
        line+=$piece
        if ((status == 0)); then
            heard "$line"
            line=''
        fi
    done
    if [ -t 2 ]; then printf '\r\033[K' >&2; fi
}

# work: rt's own lines, without what a program prints
work() {
    cd "crates/$name" || return
    if [ "$verb" = run ]; then
        rt run </dev/null 2>&1 >/dev/null
    else
        rt "$verb" 2>&1
    fi
}

mkdir -p target
work | tee "$log" | tell || {
    cat "$log"
    exit 1
}
