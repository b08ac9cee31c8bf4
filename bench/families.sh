#!/usr/bin/env bash
# How the time of judging grows with a query, family by family: at each size the processor time of one run (the least of
# three where it is short), the questions with their verdicts, and the least budget within which every question of the query
# is judged, found by trying budgets; a budget counts cases, so that number is the same on every machine. Outside the gate:
# it prints what this machine does, and promises nothing. A family ends at the first size at which a run takes more than 120
# seconds, or those that SECONDS_EACH says. Run it at the top: bench/families.sh [FAMILY..]
set -eu
. "$(dirname "$0")/program.sh"
work=$(mktemp -d)
trap 'rm -rf "$work"' EXIT
PYTHONPATH=$top/bench python3 -B - "$program" "$work" "$@" <<'PYTHON'
import os, re, sys
import running

PROGRAM, WORK, *CHOSEN = sys.argv[1:]
LIMIT = int(os.environ.get("SECONDS_EACH", 120))  # of the processor, for one run
MOST = 1_000_000

def run(schema, query, budget=None):
    """The report and the processor time; None where it takes more than the limit."""
    for name, text in (("schema.sql", schema), ("query.sql", query)):
        with open(f"{WORK}/{name}", "w") as file:
            file.write(text)
    words = [PROGRAM] + (["--budget", str(budget)] if budget else [])
    words += [f"{WORK}/schema.sql", f"{WORK}/query.sql"]
    done = running.run(words, limit=LIMIT, most_text=1 << 30)
    return (None if done.status < 0 else done.text), done.seconds

def verdicts(report):
    counts = {}
    for verdict in re.findall(r"^  \d+ E\d+ at \d+\.\.\d+: ([a-z]+(?: always)?)", report, re.M):
        counts[verdict] = counts.get(verdict, 0) + 1
    return counts

def is_spent(schema, query, budget):
    report, _ = run(schema, query, budget)
    return report is None or re.search(r": spent \d+$", report, re.M) is not None

def least_budget(schema, query):
    """The least budget that suffices, or None."""
    high = 1
    while is_spent(schema, query, high):
        if high >= MOST:
            return None
        high = min(high * 8, MOST)
    low = high // 8
    while high - low > 1:
        middle = (low + high) // 2
        low, high = (middle, high) if is_spent(schema, query, middle) else (low, middle)
    return high

def shown(name, size, schema, query):
    report, took = run(schema, query)
    if report is None:
        print(f"{name} {size}: not done in {LIMIT} s", flush=True)
        return False
    if took < 2:
        took = min([took] + [run(schema, query)[1] for _ in range(2)])
    counts = verdicts(report)
    if not counts:
        print(f"{name} {size}: {report.strip()[:80]}")
        return True
    budget = ""
    if took < 3:
        least = least_budget(schema, query)
        budget = f", budget {least}" if least else f", more than {MOST} cases"
    print(f"{name} {size}: {took * 1e3:.1f} ms, {sum(counts.values())} questions:", ", ".join(f"{n} {v}" for v, n in sorted(counts.items())) + budget, flush=True)
    return True

def one_table(columns, rules=""):
    return f"CREATE TABLE t (id INTEGER PRIMARY KEY, {', '.join(f'c{k} INTEGER{rules}' for k in range(columns))});\n"

def conjuncts(n):
    return one_table(32), "SELECT id FROM t WHERE " + " AND ".join(f"c{k % 32} > {k}" for k in range(n)) + ";\n"

def joins(n):
    tables = [f"CREATE TABLE t{k} (id INTEGER PRIMARY KEY, next INTEGER NOT NULL{f' REFERENCES t{k + 1}' if k + 1 < n else ''}, x INTEGER);\n" for k in range(n)]
    on = "".join(f" JOIN t{k} ON t{k - 1}.next = t{k}.id" for k in range(1, n))
    return "".join(tables), f"SELECT t0.x FROM t0{on} WHERE t{n - 1}.x > 5;\n"

def exists(n):
    tables = [f"CREATE TABLE t{k} (id INTEGER PRIMARY KEY, up INTEGER NOT NULL);\n" for k in range(n + 1)]
    inside = "".join(f"EXISTS (SELECT * FROM t{k} WHERE t{k}.up = t{k - 1}.id AND " for k in range(1, n + 1))
    return "".join(tables), f"SELECT t0.up FROM t0 WHERE {inside}t{n}.id > 7{')' * n};\n"

def keys(n):
    return one_table(n, " NOT NULL UNIQUE"), "SELECT a.id FROM t a, t b WHERE a.c0 = b.c0 AND a.id > 5;\n"

def different(n):
    return one_table(n), "SELECT id FROM t WHERE " + " AND ".join(f"c{k} <> 5" for k in range(n)) + ";\n"

def long_or(n):
    return one_table(32), "SELECT id FROM t WHERE " + " OR ".join(f"c{k % 32} = {k}" for k in range(n)) + ";\n"

def same_in(n):
    return one_table(1), "SELECT id FROM t WHERE " + " AND ".join("c0 IN (1, 2, 3)" for _ in range(n)) + ";\n"

def other_in(n):
    return one_table(n), "SELECT id FROM t WHERE " + " AND ".join(f"c{k} IN (1, 2, 3)" for k in range(n)) + ";\n"

def ors(n):
    return one_table(2 * n), "SELECT id FROM t WHERE " + " AND ".join(f"(c{k} = 5 OR c{k + n} <> 6)" for k in range(n)) + ";\n"

FAMILIES = {
    "conjuncts on one table": (conjuncts, (1, 2, 4, 8, 16, 32, 64, 128, 256)),
    "a query of up to 4,096 tokens, an AND of so many": (conjuncts, (512, 1022)),
    "joins along foreign keys, tables": (joins, (2, 4, 6, 8, 10, 12, 14, 16)),
    "EXISTS in EXISTS, depth": (exists, (1, 2, 3, 4, 6, 8, 12, 16, 24, 31)),
    "keys of a table that is joined to itself": (keys, (1, 2, 4, 8, 16, 32, 62)),
    "AND of c IN (1, 2, 3), one column": (same_in, (2, 3, 4, 5, 6, 7, 8)),
    "AND of c IN (1, 2, 3), a column each": (other_in, (2, 3, 4, 5, 6, 7, 8)),
    "AND of c <> 5, a column each": (different, (2, 4, 6, 8, 10, 12, 14, 16)),
    "AND of (c = 5 OR d <> 6), two columns each": (ors, (2, 3, 4, 5, 6, 7, 8)),
    "a query of up to 4,096 tokens, an OR of so many": (long_or, (128, 256, 512, 1022)),
}

for name, (make, sizes) in FAMILIES.items():
    if CHOSEN and not any(it in name for it in CHOSEN):
        continue
    for size in sizes:
        if not shown(name, size, *make(size)):
            break
PYTHON
