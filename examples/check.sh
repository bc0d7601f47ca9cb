#!/bin/sh
# Runs the program on every example, and compares what it prints and its status with what is stored. An example is a folder
# with `args` (one word a line), the files that the words name, `stdout`, `status` where it is not 0, and `stderr` where
# standard error is compared too.
examples=$(CDPATH='' cd -- "$(dirname -- "$0")" && pwd) || exit 1
top=$(dirname -- "$examples")
"$top/loader.sh" --version >/dev/null || exit 1
program=$top/crates/loader/out/loader
scratch=$(mktemp -d) || exit 1
trap 'rm -rf "$scratch"' EXIT
passed=0
failed=0

# check NAME FOLDER: runs one example, and says how it differs
check() {
    for file in args stdout; do
        [ -f "$2/$file" ] || { echo "examples: $1 has no $file"; return 1; }
    done
    wanted=0
    [ ! -f "$2/status" ] || read -r wanted <"$2/status"
    folder=$2
    set --
    while IFS= read -r word || [ -n "$word" ]; do
        set -- "$@" "$word"
    done <"$folder/args"
    (cd "$folder" && exec "$program" "$@") >"$scratch/stdout" 2>"$scratch/stderr" </dev/null
    status=$?
    same=0
    cmp -s "$scratch/stdout" "$folder/stdout" || same=1
    [ ! -f "$folder/stderr" ] || cmp -s "$scratch/stderr" "$folder/stderr" || same=1
    [ "$status" = "$wanted" ] || same=1
    [ "$same" -ne 0 ] || return 0
    echo "examples: $(basename "$folder") ended with $status, and $wanted is stored"
    diff "$folder/stdout" "$scratch/stdout"
    cat "$scratch/stderr"
    return 1
}

for folder in "$examples"/*/; do
    folder=${folder%/}
    if check "$(basename "$folder")" "$folder"; then
        passed=$((passed + 1))
    else
        failed=$((failed + 1))
    fi
done
echo "examples: $passed passed, $failed failed"
[ "$failed" -eq 0 ] && [ "$passed" -gt 0 ]
