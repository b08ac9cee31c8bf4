#!/usr/bin/env python3
"""How long the questions of a query file take: sqllint, Z3 and cvc5, and whether their verdicts agree.

Words: the proved program, the schema's file, the queries' file, the file of SMT-LIB scripts (made by
bench/smt/scripts.sh) and, if there is one, the file of times by question (made by bench/smt/times.sh).
bench/judging.sh makes them, and says what is compared with what. Every time of a solver and of a whole
run is that of the processor, so that other work on the machine counts little; a question's time of
sqllint is by the clock, the least of several. It prints what this machine does, and promises nothing.
"""
import os
import re
import selectors
import shutil
import statistics
import subprocess
import sys

from running import run

LIMIT = 60  # seconds for one script
SOLVERS = {
    "Z3": (["z3", "-in"], ["z3"]),
    "cvc5": [["cvc5", "--lang", "smt2", "-q", "--incremental"]] * 2,
}
HEAD = re.compile(r"^; question (\d+) (\d+)\b")
JUDGED = ("always", "not-always", "spent")


def scripts_of(path, verdicts):
    """The scripts of the questions that are judged: query, question, verdict, text."""
    found, lines, head = [], [], None
    with open(path, encoding="utf-8") as file:
        for line in file:
            match = HEAD.match(line)
            if match:
                head, lines = match, []
            elif line == "; end\n":
                question = int(head[1]), int(head[2])
                word = word_of(verdicts[question][1])
                if word in JUDGED:
                    found.append((*question, word, "".join(lines)))
            else:
                lines.append(line)
    return found


def verdicts_of(report):
    """The verdict of each question. The queries have no line breaks in quotes, so it can be read by lines."""
    verdicts, query = {}, 0
    for line in report.split("\n"):
        match = re.match(r"query (\d+) at ", line)
        if match:
            query = int(match[1])
        match = re.match(r"  (\d+) (E\d+) at \d+\.\.\d+: (.*)$", line)
        if match:
            verdicts[query, int(match[1])] = (match[2], match[3].replace(" (finding)", ""))
    return verdicts


def word_of(verdict):
    if verdict.startswith("not always"):
        return "not-always"
    return verdict.split(" ")[0]


class Solver:
    """A solver at the other end of a pipe."""

    def __init__(self, words):
        self.words = words
        self.start()

    def start(self):
        pipe = subprocess.PIPE
        self.process = subprocess.Popen(self.words, stdin=pipe, stdout=pipe, stderr=subprocess.STDOUT)
        self.selector = selectors.DefaultSelector()
        self.selector.register(self.process.stdout, selectors.EVENT_READ)
        self.answer("(set-logic QF_UFLIA)\n(check-sat)\n")

    def spent(self):
        """The processor time of the process so far, in seconds."""
        tasks = f"/proc/{self.process.pid}/task"
        nanos = 0
        for task in os.listdir(tasks):
            with open(f"{tasks}/{task}/schedstat", encoding="ascii") as file:
                nanos += int(file.read().split()[0])
        return nanos / 1e9

    def answer(self, script):
        """The first line that a script prints."""
        self.process.stdin.write((script + '(echo "done")\n(reset)\n').encode())
        self.process.stdin.flush()
        said = b""
        while b"done" not in said:
            if not self.selector.select(LIMIT):
                self.process.kill()
                self.start()
                return f"nothing in {LIMIT} s"
            part = os.read(self.process.stdout.fileno(), 65536)
            if not part:
                self.start()
                return "ended"
            said += part
        return said.decode().split("\n")[0]

    def ask(self, script):
        """The answer of a script, and the least processor time of three."""
        least, answer = LIMIT, None
        for _ in range(3):
            before = self.spent()
            answer = self.answer(script)
            least = min(least, max(self.spent() - before, 0))
        return answer, least


def least_of(words, times=3):
    """The least processor time of several runs."""
    return min(run(words, most_text=0).seconds for _ in range(times))


def whole_time(words, scripts, folder):
    """The processor time of one process on all scripts."""
    path = os.path.join(folder, "all.smt2")
    with open(path, "w", encoding="utf-8") as file:
        for script in scripts:
            file.write(script[3] + "(reset)\n")
    return least_of(words + [path], times=1)


def show(name, times, whole):
    worst = max(times, key=times.get)
    middle = statistics.median(times.values())
    print(
        f"{name}: median {middle * 1e3:.2f} ms, total {sum(times.values()):.2f} s, worst {times[worst] * 1e3:.1f} ms"
        f" (query {worst[0]} question {worst[1]}); one process on everything {whole:.2f} s",
        flush=True,
    )


def read_times(path):
    times = {}
    with open(path, encoding="utf-8") as file:
        for line in file:
            query, number, nanos = map(int, line.split())
            times[query, number] = nanos / 1e9
    return times


def compare(name, scripts, folder):
    one, all_of = SOLVERS[name]
    if shutil.which(one[0]) is None:
        print(f"{name}: not on this machine (apt-get install z3 cvc5)")
        return
    solver = Solver(one)
    times, differ = {}, []
    for query, number, verdict, script in scripts:
        answer, times[query, number] = solver.ask(script)
        wanted = {"always": "unsat", "not-always": "sat"}.get(verdict)
        if wanted is not None and answer != wanted:
            differ.append((query, number, verdict, answer))
    solver.process.kill()
    show(name, times, whole_time(all_of, scripts, folder))
    print(f"{name}: answers that disagree with sqllint: {len(differ)} of {len(scripts)}", *differ[:20])


def main():
    program, schema, queries, path = sys.argv[1:5]
    report = run([program, schema, queries], most_text=1 << 30).text
    verdicts = verdicts_of(report)
    scripts = scripts_of(path, verdicts)
    counts = {}
    for _, verdict in verdicts.values():
        word = word_of(verdict)
        counts[word] = counts.get(word, 0) + 1
    asked = len({query for query, _ in verdicts})
    print(f"{asked} queries, {len(verdicts)} questions:", ", ".join(f"{n} {w}" for w, n in sorted(counts.items())))
    size = sum(len(script[3]) for script in scripts) / 1e6
    print(f"{len(scripts)} of them are judged over a ground list ({size:.1f} MB as SMT-LIB)")
    judged = sum(word_of(verdict) in JUDGED for _, verdict in verdicts.values())
    if judged != len(scripts):
        print(f"of {judged - len(scripts)} questions that are judged there is no script")
    whole = least_of([program, schema, queries], times=5)
    if len(sys.argv) > 5:
        show("sqllint", read_times(sys.argv[5]), whole)
    else:
        each = whole / len(scripts) * 1e3
        print(f"sqllint: one process on everything {whole:.2f} s, that is {each:.2f} ms a question that is judged")
    for name in SOLVERS:
        compare(name, scripts, os.path.dirname(path))


main()
