#!/usr/bin/env bash
# Runs every command of README.md in order, each in a shell at the repository's root, and holds its status to the one that its comment names
# (`status 1`), else to 0; then holds the lines that the README shows to what is printed.
# `bash .ci/run` is left out: it is the whole gate, which runs this. Where nothing is proved yet, the first command proves the library.
# What the commands write, poll.*, target/ and each crate's out/, is in .gitignore.
set -eu
cd "$(dirname "$0")/.."

while IFS= read -r line; do
    command=$(sed -E 's/ +# .*$//' <<<"$line")
    expected=$(sed -nE 's/.* # .*status ([0-9]).*/\1/p' <<<"$line")
    echo "\$ $command"
    status=0
    bash -euc "$command" </dev/null || status=$?
    if [ "$status" -ne "${expected:-0}" ]; then
        echo "README: status $status, not ${expected:-0}"
        exit 1
    fi
done < <(grep -E '^    (rt |bash |cc |\(cd |target/|crates/)' README.md | sed -E 's/^    //' | grep -v '^bash .ci/run')

# The block of README.md that begins with a line.
shown() { sed -n "/^    $1\$/,/^\$/p" README.md | sed -E '/^$/d; s/^    //'; }
diff <(shown 'verdict unsafe') <(crates/judge/out/judge <poll.model)
diff <(shown 'poll: unsafe') <(target/install/bin/zervuldo judge plans/poll.txt --unit 20ms --crystal 50ppm || true)
echo 'every command of the README ran'
