#!/bin/sh
# Runs the program `loader` with the words given, in the folder of the caller. Where it is not built yet, or something that
# it rests on is newer (code, definitions, proofs), it is built first, which proves each crate.
#
#   ./loader.sh WORDS                the program, proved
#   ./loader.sh --unproved WORDS     the program as it stands, within a minute: only compiled, with checks as it runs
top=$(CDPATH='' cd -- "$(dirname -- "$0")" && pwd) || exit 1
program=$top/crates/loader/out/loader

# Runs the program as it stands, unproved: in a minute, where a first proof takes many.
run_unproved() {
    here=$PWD
    set -- -- "$@"
    for word in "$@"; do
        [ ! -f "$word" ] || set -- --data "$word=$here/$word" "$@"
    done
    cd "$top/crates/loader" && exec rt try "$@"
}

# The log of `rt run` as one line of progress.
progress() {
    awk -v all="$1" '
        /^rt: chose --jobs .* for / { crate = $NF; n++; show("") }
        /^so far: / { show(": " $3 " of " $5 " functions") }
        function show(more) { printf "\rloader.sh: proving %s (%d of %d)%-28s", crate, n, all, more; fflush() }
        END { if (n) print "" }' >&2
}

# How many crates the program rests on, itself among them.
crate_count() {
    awk -F: '/^[a-z]/ { split($1, name, " "); needs[name[1]] = $2 }
        function visit(crate,    all, n, i) {
            if (!(crate in needs) || crate in seen) return
            seen[crate]
            count++
            n = split(needs[crate], all, " ")
            for (i = 1; i <= n; i++) visit(all[i])
        }
        END { visit("loader"); print count }' "$top/crates.txt"
}

is_built() {
    [ -x "$program" ] && [ "$program" -nt "$top/crates.txt" ] && [ -z "$(find "$top/crates" \( -name out -o -name 'bench_*' \) -prune -o \
        \( -name '*.rt' -o -name '*.antt' \) -newer "$program" -print -quit)" ]
}

if [ "${1-}" = --unproved ]; then
    shift
    run_unproved "$@"
fi

# The help is read off the source, so that nothing is proved for it.
if [ "${1-}" = --help ]; then
    sed -n '/^const HELP/,/^";/{/^const HELP/d;/^";/d;p;}' "$top/crates/loader/src/main.rt"
    exit
fi

if ! is_built; then
    echo "loader.sh: the first run proves every crate: some 20 minutes on four processors, and none after that" >&2
    echo "loader.sh: to look at once, unproved, stop this and put --unproved in front of the words" >&2
    log=$(mktemp) || exit 1
    # a program that is as it was is not written again, and would seem old for ever
    rm -f "$program"
    crates=$(crate_count)
    (cd "$top/crates/loader" && rt run -- --version) 2>&1 | tee "$log" | progress "$crates"
    if [ ! -x "$program" ]; then
        cat "$log" >&2
        rm -f "$log"
        echo "loader.sh: the program was not built" >&2
        exit 1
    fi
    rm -f "$log"
fi
exec "$program" "$@"
