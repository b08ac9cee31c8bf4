#!/usr/bin/env bash
# How much memory the proved program takes, and how long: on files of queries, of at most 1 MiB, the most that is
# read, which it judges, and on files of certificates of 16 MiB, the most that is read, which it checks. Outside the
# gate: it prints what this machine does, and promises nothing. Run it at the top: bench/memory.sh [WORD..]; with words
# only the lines that have one of them. Times are of the processor.
#
# The queries: the two hundred of bench/judging, again and again; queries of 32 conjuncts, each with 66 questions; and
# one query alone of nearly 4,096 tokens, with two thousand questions. The certificates: those of the two hundred
# queries, again and again; and three that stand alone in their file, of hundreds of thousands of steps, written here:
# an Or in an Or opened before any branch is closed; ORs in ORs of which each branch is closed before the next; and one
# that takes one And apart again and again, which shows nothing and would be refused at its end. Each step of the last
# adds as many facts as the And has parts, so there the memory goes by what the steps make and not by the file; it is
# run within 2 GiB.
set -eu
. "$(dirname "$0")/program.sh"
work=$(mktemp -d)
trap 'rm -rf "$work"' EXIT
PYTHONPATH=$top/bench python3 -B - "$program" "$top/bench/judging" "$work" "$@" <<'PYTHON'
import itertools, json, subprocess, sys
from running import run

PROGRAM, JUDGING, WORK, *CHOSEN = sys.argv[1:]
MOST_TEXT, MOST_CERTS = 1_048_576, 16_777_216
LIMIT = 1800  # seconds of the processor for one run

def write(name, front, parts, behind, most):
    """A file of the front, as many of the parts as there is room for, and what stands behind. Answers its path."""
    path, size = f"{WORK}/{name}", len(front) + len(behind)
    with open(path, "w", encoding="utf-8") as file:
        file.write(front)
        for part in parts:
            size += len(part.encode())
            if size > most:
                break
            file.write(part)
        file.write(behind)
    return path

def shown(name, words, memory=None):
    done = run([PROGRAM] + words, limit=LIMIT, memory=memory)
    last = (done.text.strip().split("\n") or [""])[-1][:60]
    end = f"status {done.status}" if done.status >= 0 else f"ended by signal {-done.status}"
    print(f"{name}: {done.seconds:.1f} s, {done.mebibytes:.0f} MiB, {end}; last line of its first MiB: {last!r}", flush=True)

# ---- queries

def ordinary():
    with open(f"{JUDGING}/queries.sql", encoding="utf-8") as file:
        lines = [line for line in file if line.startswith("SELECT")]
    path = write("ordinary.sql", "", itertools.cycle(lines), "", MOST_TEXT)
    return [f"{JUDGING}/schema.sql", path], None

WIDE = "CREATE TABLE t (id INTEGER PRIMARY KEY, " + ", ".join(f"c{k} INTEGER" for k in range(32)) + ");\n"

def conjuncts(name, count, queries):
    """Queries of so many conjuncts over one table, in a file of at most 1 MiB."""
    query = "SELECT id FROM t WHERE " + " AND ".join(f"c{k % 32} > {k}" for k in range(count)) + ";\n"
    schema = write("wide.sql", WIDE, (), "", MOST_TEXT)
    return [schema, write(name, "", itertools.repeat(query, queries), "", MOST_TEXT)], None

def many():
    return conjuncts("many.sql", 32, MOST_TEXT)

def long_query():
    return conjuncts("long.sql", 1022, 1)

# ---- certificates

def certs_of(certificates):
    """A file of certificates, each of which is a text with a comma before it but the first."""
    return write("certs.json", '{"certs":[', certificates, '],"sqllint":1}\n', MOST_CERTS)

def one_certificate(schema, query, first, parts):
    """The words to check a file of one certificate: of the first steps and of as many parts as there is room for, each some
    steps and the number of branches that they leave behind, which are closed at the end."""
    front = '{"certs":[{"query":1,"question":1,"steps":[' + first
    behind = '],"value":null}],"sqllint":1}\n'
    path, size, left = f"{WORK}/certs.json", len(front) + len(behind), 0
    with open(path, "w", encoding="utf-8") as file:
        file.write(front)
        for steps, more in parts:
            size += len(steps) + more * len(SUM)
            if size + len(SUM) > MOST_CERTS:
                break
            file.write(steps)
            left += more
        file.write(SUM * (left + 1) + behind)
    return ["--check", path, write("schema.sql", schema, (), "", MOST_TEXT), write("query.sql", query, (), "", MOST_TEXT)]

QUERY = "SELECT a FROM t WHERE a > 5 AND a < 6;\n"
# fact 0 is the counter sentence, 1 the CHECK, 2 the And of the two bounds, which are 3 and 4 and contradict each other
START = '["ex",0],["and",2]'
SUM = ',["sum",[[0,3],[0,4]]]'

def again():
    done = subprocess.run([PROGRAM, "--certs", f"{JUDGING}/schema.sql", f"{JUDGING}/queries.sql"], stdout=subprocess.PIPE)
    certs = [json.dumps(cert, separators=(",", ":")) for cert in json.loads(done.stdout)["certs"]]
    first = certs[0]
    parts = itertools.chain([first], ("," + cert for cert in itertools.cycle(certs)))
    return ["--check", certs_of(parts), f"{JUDGING}/schema.sql", f"{JUDGING}/queries.sql"], None

def deep():
    def parts():
        # the CHECK at the row, an Or of two Ors of two: its first part, and the first part of that
        for fact in itertools.count(5, 3):
            yield f',["all",1,0],["or",{fact}],["or",{fact + 1}]', 2

    schema = "CREATE TABLE t (a INTEGER, CHECK (a < 1 OR a < 2));\n"
    return one_certificate(schema, QUERY, START, parts()), None

DEPTH = 30

def closed():
    def parts():
        fact = 5
        while True:
            steps = [',["all",1,0]']
            for _ in range(DEPTH):
                # an Or of an Or of two and of the rest: both of the two are closed, and the rest is next
                steps += [f',["or",{fact}],["or",{fact + 1}]', SUM, SUM]
                fact += 1
            steps += [f',["or",{fact}]', SUM]
            fact += 2
            yield "".join(steps), 0

    check = "a < 0"
    for k in range(1, DEPTH + 1):
        check = f"a < {k} OR ({check})"
    schema = f"CREATE TABLE t (a INTEGER, CHECK ({check}));\n"
    return one_certificate(schema, QUERY, START, parts()), None

def one_and():
    query = "SELECT a FROM t WHERE " + " AND ".join(f"a <> {k}" for k in range(64)) + ";\n"
    schema = "CREATE TABLE t (a INTEGER);\n"
    return one_certificate(schema, query, '["ex",0]', itertools.repeat((',["and",1]', 0))), 2 << 30

FILES = {
    "1 MiB of the two hundred queries": ordinary,
    "1 MiB of queries of 32 conjuncts": many,
    "a query of nearly 4,096 tokens": long_query,
    "16 MiB of the certificates of the two hundred queries": again,
    "16 MiB of one certificate, an Or in an Or, all open": deep,
    "16 MiB of one certificate, ORs in ORs, each closed": closed,
    "16 MiB of one certificate, one And again and again, within 2 GiB": one_and,
}

for name, made in FILES.items():
    if not CHOSEN or any(it in name for it in CHOSEN):
        words, memory = made()
        shown(name, words, memory)
PYTHON
