#!/usr/bin/env bash
# Times each judged question of a query file alone: bench/smt/times.sh SCHEMA QUERIES OUT. The program that does so
# (times.rt.txt) is no crate of this repository; it is proved and built by `rt run` in a copy of the crates, over the
# libraries that stand in crates/*/out, as `.ci/run` leaves them; where they are not there, all crates are proved first.
set -eu
top=$(cd "$(dirname "$0")/../.." && pwd)
schema=$(readlink -f "$1")
queries=$(readlink -f "$2")
out=$(readlink -f "$3")
work=$(mktemp -d)
trap 'rm -rf "$work"' EXIT
mkdir "$work/.git"
cp -r "$top/crates" "$top/crates.txt" "$top/HANDLES" "$work"
mkdir -p "$work/crates/ask_times/src"
cp "$top/bench/smt/times.rt.txt" "$work/crates/ask_times/src/main.rt"
echo "ask_times: lint_base lint_core error_reductions lint_engine sql_lex sql_reading sqlite_items anyhow" >> "$work/crates.txt"
cd "$work/crates/ask_times"
rt run -- "$schema" "$queries" > "$work/said" 2> "$work/errors" || {
    tail -n 20 "$work/errors" >&2
    exit 1
}
grep -E '^[0-9]+ [0-9]+ [0-9]+$' "$work/said" > "$out"
