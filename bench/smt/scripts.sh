#!/usr/bin/env bash
# Writes the ground list of each judged question of a query file as an SMT-LIB script: bench/smt/scripts.sh SCHEMA QUERIES
# OUT. The program that does so (scripts.rt.txt, which says how) is no crate of this repository and is never proved: it is
# built from a copy of the crates by `rt try`, in some minutes, and is slow itself, since `rt try` watches it: a run that takes
# sqllint seconds takes it some ten minutes on a quiet machine.
set -eu
top=$(cd "$(dirname "$0")/../.." && pwd)
schema=$(readlink -f "$1")
queries=$(readlink -f "$2")
out=$(readlink -f "$3")
work=$(mktemp -d)
trap 'rm -rf "$work"' EXIT
mkdir -p "$work/.git" "$work/crates/ground_smt/src"
(cd "$top/crates" && find . -name out -prune -o -type f -print0 | xargs -0 cp --parents -t "$work/crates")
cp "$top/crates.txt" "$top/HANDLES" "$work"
cp "$top/bench/smt/scripts.rt.txt" "$work/crates/ground_smt/src/main.rt"
echo "ground_smt: lint_base lint_core sort_formula sorted_skolem ground_theory instantiate constraint_axioms" \
    "error_reductions lint_engine sql_lex sql_reading sqlite_items anyhow" >> "$work/crates.txt"
: > "$out"
cd "$work/crates/ground_smt"
rt try --seconds 20000 --steps 4000000000000 -- "$schema" "$queries" "$out" > "$work/said" 2>&1 || {
    tail -n 20 "$work/said" >&2
    exit 1
}
