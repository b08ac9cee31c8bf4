#!/usr/bin/env bash
# How long the questions of the two hundred queries of bench/judging take, by sqllint and, on the same ground lists, by Z3
# and cvc5 where they are on the machine (apt-get install z3 cvc5), one process each for all questions; and whether the
# verdicts agree: a solver should find no case exactly where sqllint answers `always`. It prints the median, the total and
# the worst question of each. Outside the gate: it prints what this machine does, and promises nothing.
#
# What is compared with what:
#
# - A question, of a solver: the processor time from its script's first byte to its answer, so with the reading of the
#   script. One process takes all scripts through a pipe, with a reset between. The least of three.
# - A question, of sqllint: the time by the clock, inside one process, from the bound query to the answer, so with the
#   counter sentence, the axioms, the ground list, and behind the search the certificate or the database, which a solver
#   does not make. A run of the program can't be seen into, so a small program takes these times with the same calls
#   (bench/smt/times.sh), proved and built like sqllint. The least of five. It needs the libraries in crates/*/out, as the
#   gate leaves them; where they are not there, these times are left out.
# - Everything, of a solver: the processor time of one process that reads one file of all scripts.
# - Everything, of sqllint: that of one run of the program as the gate built it, on the schema and the queries: with the
#   reading of both, the questions that are moot or blocked, and the report. The least of five.
#
# The scripts are made first, in some minutes (bench/smt/scripts.sh). Where SCRIPTS or TIMES names a file that was made
# before, that one is taken. Run it at the top: bench/judging.sh
set -eu
. "$(dirname "$0")/program.sh"
work=$(mktemp -d)
trap 'rm -rf "$work"' EXIT
schema=$top/bench/judging/schema.sql
queries=$top/bench/judging/queries.sql

scripts=$work/scripts.smt2
if [ -n "${SCRIPTS:-}" ]; then
    cp "$SCRIPTS" "$scripts"
else
    "$top/bench/smt/scripts.sh" "$schema" "$queries" "$scripts"
fi

times=${TIMES:-}
if [ -z "$times" ] && [ -d "$top/crates/lint_engine/out/rlib" ]; then
    times=$work/times
    "$top/bench/smt/times.sh" "$schema" "$queries" "$times"
fi
[ -n "$times" ] || echo "no times of single questions by sqllint: there are no libraries in crates/*/out"

PYTHONPATH=$top/bench python3 -B "$top/bench/judging/compare.py" "$program" "$schema" "$queries" "$scripts" ${times:+"$times"}
