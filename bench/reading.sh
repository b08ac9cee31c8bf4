#!/usr/bin/env bash
# How long the proved program takes to read and bind query files of 512 KiB and 1 MiB of ordinary queries and to list
# their questions, and how much memory it takes. Nothing is judged: each run checks a file of no certificates. Times are of
# the processor, the least of five. Outside the gate: it prints what this machine does, and promises nothing. Run it at the
# top: bench/reading.sh
set -eu
. "$(dirname "$0")/program.sh"
work=$(mktemp -d)
trap 'rm -rf "$work"' EXIT
schema=$top/examples/shop/schema.sql
certs=$work/none.json
printf '{"certs":[],"sqllint":1}\n' > "$certs"

# ordinary queries, again and again, to at most so many bytes
queries() {
    awk -v limit="$1" 'BEGIN {
        n = 0; size = 0;
        q[0] = "SELECT name, email FROM customer WHERE credit > %d ORDER BY name;\n";
        q[1] = "SELECT DISTINCT c.name AS buyer FROM customer c JOIN purchase p ON p.customer = c.id WHERE p.paid IS NOT NULL AND p.id <> %d;\n";
        q[2] = "SELECT * FROM product WHERE price + 5 < %d AND NOT (stock = 0 OR title = '"'"'none'"'"');\n";
        q[3] = "SELECT name FROM customer c WHERE NOT EXISTS (SELECT * FROM purchase p WHERE p.customer = c.id AND p.paid = %d);\n";
        q[4] = "SELECT title FROM product WHERE code NOT IN (SELECT product FROM line WHERE amount BETWEEN 1 AND %d);\n";
        for (;;) {
            line = sprintf(q[n % 5], n);
            if (size + length(line) > limit) exit;
            printf "%s", line; size += length(line); n++;
        }
    }'
}

queries 524288 > "$work/half.sql"
queries 1048576 > "$work/whole.sql"
PYTHONPATH=$top/bench python3 -B - "$work" "$program" --check "$certs" "$schema" <<'PYTHON'
import os, sys
from running import run

work, *words = sys.argv[1:]

def shown(name):
    """The least processor time of five runs."""
    path = f"{work}/{name}"
    runs = [run(words + [path]) for _ in range(5)]
    least, memory = min(it.seconds for it in runs), max(it.mebibytes for it in runs)
    with open(path, encoding="utf-8") as file:
        count = sum(1 for _ in file)
    print(f"{os.path.getsize(path)} bytes, {count} queries: {least * 1e3:.0f} milliseconds, {memory:.0f} MiB, status {runs[0].status}")
    return least

half = shown("half.sql")
whole = shown("whole.sql")
print(f"twice the text takes {whole / half:.2f} times as long")
PYTHON
