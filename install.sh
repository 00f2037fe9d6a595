#!/usr/bin/env bash
# Builds zervuldo and copies it into a folder, with its man page and the completion for bash:
#     bash install.sh DIR
# The library is proved first, crates side by side, and again only where something changed since; DRIFT_LIB names a folder that has one already.
set -eu
if [ $# -ne 1 ]; then
    echo 'usage: bash install.sh DIR' >&2
    exit 3
fi
mkdir -p "$1"
folder=$(cd "$1" && pwd)
cd "$(dirname "$0")"

if [ -z "${DRIFT_LIB:-}" ]; then
    # As many crates at a time as there are processors, and 3 GB of memory for each.
    at_once=$(nproc)
    fit=$(awk '/^MemAvailable:/ { print int($2 / 3000000) }' /proc/meminfo)
    if [ "${fit:-1}" -lt "$at_once" ]; then at_once=$((fit > 1 ? fit : 1)); fi
    (cd crates/drift_c && rt all check --jobs "$at_once" && rt lib)
fi
(cd rust && cargo build --release --offline -p zervuldo)
program=${CARGO_TARGET_DIR:-rust/target}/release/zervuldo
pages=$folder/share/man/man1
completions=$folder/share/bash-completion/completions
mkdir -p "$folder/bin" "$pages" "$completions"
cp "$program" "$folder/bin/"
"$program" help --man -o "$pages/zervuldo.1"
"$program" completion -o "$completions/zervuldo"
echo "installed: $folder/bin/zervuldo, its man page and the completion for bash under $folder/share"
