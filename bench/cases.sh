#!/usr/bin/env bash
# How the search of cases goes by itself, on lists of clauses that a small program makes (bench/cases): of each list the
# processor time of the search, which is that of a run that makes the list and searches it less that of one that only makes
# it, each the least of five; the splits that were come to, which are the least budget that suffices, found by trying
# budgets, or where the budget is spent what the search says; and the most memory. The lists are
#
# - chains of one-way clauses, each of which waits for the one before, with bounds on a hundred cells: 20,000, 40,000 and
#   400,000 of them, the most that are searched;
# - a chain of 400,000 of which the first and the last contradict each other, so that the closed tree is as deep;
# - twenty free choices of two ways between two choices of two ways each, no two of which agree: millions of splits if the
#   search did not jump back over choices that no conflict needs;
# - two hundred clauses like those of pigeons and holes, with a budget of 200,000.
#
# The program is no crate of this repository; it is proved and built by `rt run` in a copy of the crates, over the libraries
# that stand in crates/*/out, as `.ci/run` leaves them; where they are not there, the crates below it are proved first.
# Where CASES names the program as it was built before, that one is taken. Outside the gate: it prints what this machine
# does, and promises nothing. Run it at the top: bench/cases.sh
set -eu
top=$(cd "$(dirname "$0")/.." && pwd)
work=$(mktemp -d)
trap 'rm -rf "$work"' EXIT

build() {
    local crate=$work/crates/search_cases
    mkdir "$work/.git"
    cp -r "$top/crates" "$top/crates.txt" "$top/HANDLES" "$work"
    (cd "$top/bench/cases" && find . -name '*.txt') | while IFS= read -r file; do
        mkdir -p "$crate/$(dirname "$file")"
        cp "$top/bench/cases/$file" "$crate/${file%.txt}"
    done
    echo "search_cases: lint_base lint_core sort_formula ground_theory case_split sqlite_items anyhow" >> "$work/crates.txt"
    (cd "$crate" && rt run > "$work/said" 2>&1) || {
        tail -n 20 "$work/said" >&2
        exit 1
    }
    program=$crate/out/search_cases
}

program=${CASES:-}
[ -n "$program" ] || build
PYTHONPATH=$top/bench python3 -B - "$program" <<'PYTHON'
import sys
from running import run

PROGRAM = sys.argv[1]
MOST = 1_000_000

def searched(*words, times=1):
    """What is printed, the least processor time, and the most memory."""
    runs = [run([PROGRAM, *map(str, words)]) for _ in range(times)]
    if runs[0].status:
        return f"it ended with {runs[0].status}", runs[0].seconds, runs[0].mebibytes
    return runs[0].text.strip(), min(it.seconds for it in runs), max(it.mebibytes for it in runs)

def least_budget(name, size):
    """The least budget within which the list is searched to its end."""
    low, high = -1, 1
    while searched(name, size, high)[0].startswith("spent"):
        low, high = high, high * 4
    while high - low > 1:
        middle = (low + high) // 2
        low, high = (middle, high) if searched(name, size, middle)[0].startswith("spent") else (low, middle)
    return high

def shown(what, name, size, budget):
    text, took, memory = searched(name, size, budget, times=5)
    _, made, _ = searched(name, size, times=5)
    splits = "" if text.startswith(("spent", "it ended")) else f", {least_budget(name, size)} splits"
    print(f"{what}: {text}{splits}; {(took - made) * 1e3:.0f} ms, {memory:.0f} MiB", flush=True)
    return took - made

half = shown("a chain of 20,000", "chain", 20_000, MOST)
whole = shown("a chain of 40,000", "chain", 40_000, MOST)
print(f"twice the chain takes {whole / half:.2f} times as long" if half else "too fast to compare")
shown("a chain of 400,000", "chain", 400_000, MOST)
shown("a chain of 400,000 that closes", "closed", 400_000, MOST)
shown("twenty free choices between two", "jump", 22, MOST)
shown("two hundred clauses of pigeons and holes, budget 200,000", "pigeons", 200, 200_000)
PYTHON
