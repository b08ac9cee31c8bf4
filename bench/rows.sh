#!/usr/bin/env bash
# How long it takes to put the tables of a question's sentences in order, to list their row terms and to make the ground
# list, with the start of the program and the reading of the question, and how much memory: of all 27 questions of a query
# over four tables together; of questions with nearly as many clauses as the limit lets through, once few rows with Foralls
# in Foralls and once many rows of a table with a key; and of one with some 10^9 clauses, which is refused by its count.
# Nothing is judged. What is timed is the proved program `worked_grounds`, on pages that this script writes: each says how
# many rows and clauses there are, and a line that comes otherwise is printed. Outside the gate: it prints what this
# machine does, and promises nothing. Run it at the top: bench/rows.sh
set -eu
top=$(cd "$(dirname "$0")/.." && pwd)
work=$(mktemp -d)
trap 'rm -rf "$work"' EXIT
program=$top/crates/worked_grounds/out/worked_grounds

# built first, where that is still to be done
[ -x "$program" ] || (cd "$top/crates/worked_grounds" && rt run > /dev/null) || true
[ -x "$program" ] || { echo "the program worked_grounds could not be built" >&2; exit 1; }

# so many entries of a table, behind one another
entries() { seq -s ', ' -f "$1 $1%g" 1 "$2"; }

# ---- the questions of a query with two keys in a row, a composite key, EXISTS and IN
dept='CREATE TABLE dept (deptno INTEGER PRIMARY KEY, dname VARCHAR(14) NOT NULL, loc VARCHAR(13) UNIQUE)'
emp='CREATE TABLE emp (empno INTEGER PRIMARY KEY, ename VARCHAR(10) NOT NULL, job VARCHAR(9), mgr INTEGER, sal INTEGER CHECK (sal > 0), deptno INTEGER NOT NULL REFERENCES dept)'
proj='CREATE TABLE proj (pno INTEGER PRIMARY KEY, pname VARCHAR(20) NOT NULL, deptno INTEGER NOT NULL REFERENCES dept)'
works='CREATE TABLE works (empno INTEGER NOT NULL REFERENCES emp, pno INTEGER NOT NULL REFERENCES proj, hours INTEGER NOT NULL CHECK (hours BETWEEN 1 AND 60), PRIMARY KEY (empno, pno))'
{
    echo "schema $dept; $emp; $proj; $works"
    echo "query SELECT DISTINCT e.ename, d.dname, p.pname FROM emp e JOIN dept d ON e.deptno = d.deptno, works w, proj p WHERE w.empno = e.empno AND w.pno = p.pno AND w.hours >= 1 AND EXISTS (SELECT * FROM works v WHERE v.empno = e.empno AND v.hours > 8) AND p.deptno IN (SELECT x.deptno FROM dept x WHERE x.loc = 'BOSTON') ORDER BY e.ename"
} > "$work/read.txt"
{
    cat "$work/read.txt"
    for question in E1 E2 'E3 0 given A' 'E3 1 given A' 'E3 2 given A' 'E4 0 1' 'E4 0 2' 'E4 1 2' 'E5 2' \
        'E6 '{0..8} 'E7 '{0..8}; do
        echo "problem $question => WORKS, EMP, PROJ, DEPT: rows ..."
    done
} > "$work/query.txt"

# ---- nearly as many clauses as the limit lets through: 16 rows, of which each four and each two stand under Foralls
deep() {
    echo 'schema CREATE TABLE a (x INTEGER)'
    echo "query SELECT 1 FROM $(entries a 16) WHERE NOT EXISTS (SELECT * FROM a q, a r, a s, a t WHERE q.x < r.x AND s.x IS NULL) AND NOT EXISTS (SELECT * FROM a q, a r WHERE q.x < r.x AND r.x < q.x) AND a1.x > 0"
    echo 'problem E1 => A: rows 16, nodes 399924'
}
deep > "$work/deep.txt"

# 257 rows of a table with a key: 257 rows and 16 subqueries, NOT NULL, and the key of each two
wide() {
    echo 'schema CREATE TABLE a (x INTEGER PRIMARY KEY)'
    echo "query SELECT 1 FROM $(entries a 16) WHERE EXISTS (SELECT * FROM a){15: AND EXISTS (SELECT * FROM $(entries a 16))}"
    echo 'problem E1 => A: rows 257, nodes 397084'
}
wide > "$work/wide.txt"

# ---- far above the limit: 16 rows, of which each seven stand under Foralls
far() {
    echo 'schema CREATE TABLE a (x INTEGER)'
    echo "query SELECT 1 FROM $(entries a 16) WHERE NOT EXISTS (SELECT * FROM $(entries a 7) WHERE a1.x < a2.x)"
    echo 'problem E1 => nodes 1091637537'
}
far > "$work/far.txt"

# the least times of five runs, the most memory, and what was printed but for the count of lines
python3 - "$program" "$work" <<'PYTHON'
import os, subprocess, sys, time
program, work = sys.argv[1:]

def run(page):
    start = time.monotonic()
    process = subprocess.Popen([program, page], cwd=work, stdout=subprocess.PIPE)
    text = process.stdout.read().decode()
    _, status, usage = os.wait4(process.pid, 0)
    clock = time.monotonic() - start
    for line in text.splitlines():
        if not line.endswith(" lines as they say"):
            print("otherwise:", line)
    if status:
        print("it ended with", status)
    return usage.ru_utime + usage.ru_stime, clock, usage.ru_maxrss // 1024

for page, what in [
    ("read.txt", "the start, and the reading of the query"),
    ("query.txt", "the same, and its 27 questions"),
    ("deep.txt", "one question of 16 rows and 399,924 clauses"),
    ("wide.txt", "one question of 257 rows and 397,084 clauses"),
    ("far.txt", "one question of 1,091,637,537 clauses, refused"),
]:
    runs = [run(page) for _ in range(5)]
    used, clock = min(run[0] for run in runs) * 1000, min(run[1] for run in runs) * 1000
    memory = max(run[2] for run in runs)
    print(f"{what}: {used:.1f} milliseconds of the processor, {clock:.1f} by the clock, {memory} MiB")
PYTHON
