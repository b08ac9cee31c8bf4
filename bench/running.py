"""Runs a program and measures it: for the scripts beside this file."""
import collections
import os
import resource
import subprocess
import tempfile

Run = collections.namedtuple("Run", "status seconds mebibytes text")


def run(words, limit=600, memory=None, most_text=1 << 20):
    """Runs the words with no input. Answers the status (negative after a signal), the processor time in seconds, user and
    system together, the most memory in MiB, and the front of what was printed. The limits are seconds of the processor and
    bytes of addresses."""

    def keep_limits():
        resource.setrlimit(resource.RLIMIT_CPU, (limit, limit))
        if memory:
            resource.setrlimit(resource.RLIMIT_AS, (memory, memory))

    with tempfile.TemporaryFile() as printed:
        process = subprocess.Popen(
            words, stdin=subprocess.DEVNULL, stdout=printed, stderr=subprocess.DEVNULL, preexec_fn=keep_limits
        )
        _, status, used = os.wait4(process.pid, 0)
        process.returncode = os.waitstatus_to_exitcode(status)
        printed.seek(0)
        text = printed.read(most_text).decode("utf-8", "replace")
    return Run(process.returncode, used.ru_utime + used.ru_stime, used.ru_maxrss / 1024, text)
