#!/usr/bin/env bash
# Runs the proved programs crates/NAME/out/NAME over stored plans, and holds every byte that they write to what is stored. tests/programs/README.md
# says what stands where. `rt run` in a program's crate makes it, and so does `rt ci`; the README has the commands.
set -u
cd "$(dirname "$0")/.." || exit 1
cases=tests/programs
room=$(mktemp -d) || exit 1
trap 'rm -rf "$room"' EXIT

# The bytes of a list of numbers.
bytes() {
    # shellcheck disable=SC2059
    printf "$(sed 's/#.*//' "$1" | tr -cs '0-9' '\n' | awk 'NF { printf "\\%03o", $1 }')"
}

passed=0 failed=0
for expected in "$cases"/*.text "$cases"/*.numbers; do
    name=$(basename "$expected")
    stem=${name%%.*} form=${name##*.}
    program=${name#*.} program=${program%.*}
    plan=$cases/$stem.plan
    [ -f "$plan" ] || plan=plans/$stem.plan
    bytes "$plan" >"$room/input"
    case $form in numbers) bytes "$expected" ;; *) cat "$expected" ;; esac >"$room/expected"
    if [ -f "$plan" ] && "crates/$program/out/$program" <"$room/input" >"$room/output" && cmp "$room/output" "$room/expected"; then
        echo "$program < $plan: as in $name"
        passed=$((passed + 1))
    else
        echo "$program < $plan: NOT as in $name"
        failed=$((failed + 1))
    fi
done
echo "programs: $passed of $((passed + failed)) cases as stored"
[ "$failed" -eq 0 ]
