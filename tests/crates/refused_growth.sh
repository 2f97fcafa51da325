#!/usr/bin/env bash
# Runs each test whose name ends in refused_growth or in_N_growths, in the proved tests that rt ci (or rt test) has built:
# once with all its allocations (growths), which must be N if the name says how many, then with each of them failing in turn,
# and with one past the last. The last line counts the runs.
set -eu
here=$(cd "$(dirname "$0")/../.." && pwd)
work=$(mktemp -d)
trap 'rm -rf "$work"' EXIT
kind='[a-z0-9_]*(refused_growth|_in_[0-9]+_growths)'
passed=0
failed=0
fail() {
    failed=$((failed + 1))
    echo "tests/crates/refused_growth.sh: $*: FAILED" >&2
}

# One run of a test in which the allocation of this number fails (0: none). Their number is left in $growths.
run() { # tests, name, number
    local status=0
    (ulimit -c 0; cd "$work"; exec timeout 60 env REFUSE="$3" LD_PRELOAD="$work/refuse.so" "$1" "$2" 9> growths > said 2>&1) || status=$?
    growths=$(cat "$work/growths")
    if [ "$status" != 0 ] || [ "$(tail -n 1 "$work/said")" != "test result: ok" ] || [ "${growths:-0}" -le 0 ]; then
        fail "$2 of $(basename "$1"), growth $3 (status $status)"
        cat "$work/said" >&2
    elif [ "$3" = 0 ] && [[ $2 =~ _in_([0-9]+)_growths$ ]] && [ "$growths" != "${BASH_REMATCH[1]}" ]; then
        fail "$2 of $(basename "$1") makes $growths growths"
    else
        passed=$((passed + 1))
    fi
}

"${CC:-cc}" -O1 -shared -fPIC -o "$work/refuse.so" "$here/tests/lib/refuse.c"
for crate in "$here"/crates/*/; do
    name=$(basename "$crate")
    grep -qsrE "fn ($kind)\\(" "$crate/src" || continue
    tests=$crate/out/${name}_tests
    if [ ! -x "$tests" ] || [ -n "$(find "$here/crates.txt" "$here"/crates/*/src -newer "$tests" -print -quit)" ]; then
        fail "$name has no tests built from these sources: rt ci builds them"
        continue
    fi
    for test in $("$tests" --list | sed -nE "s/^((.*::)?($kind)): test$/\\1/p"); do
        run "$tests" "$test" 0
        all=${growths:-0}
        for ((n = 1; n <= all + 1; n++)); do
            run "$tests" "$test" "$n"
        done
        echo "tests/crates/refused_growth.sh: $name, $test: $all growths"
    done
done
echo "$passed passed, $failed failed"
[ "$failed" = 0 ] && [ "$passed" -gt 0 ]
