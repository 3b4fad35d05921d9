#!/usr/bin/python3
"""Measures a command.

usage: measure.py TIMES COMMAND..

Runs the command so many times (1 to 1,000), and prints the least seconds of a processor that it took, in the
program and in the system for it, and the greatest memory in bytes that was resident. The least memory that is seen
is that of Python, some 12 MB. The output is dropped; where the command fails, nothing is measured.
"""
import resource
import subprocess
import sys

from common import Bad, number_word, run_script


def spent():
    """The seconds of a processor that all commands before took."""
    usage = resource.getrusage(resource.RUSAGE_CHILDREN)
    return usage.ru_utime + usage.ru_stime


def measure(words):
    if len(words) < 2:
        return False
    seconds = []
    for _ in range(number_word(words[0], 1, 1000, "TIMES")):
        before = spent()
        status = subprocess.run(words[1:], stdout=subprocess.DEVNULL).returncode
        seconds.append(spent() - before)
        if status:
            raise Bad(f"{words[1]}: ended with {status}")
    peak = resource.getrusage(resource.RUSAGE_CHILDREN).ru_maxrss * 1024
    print(f"seconds {min(seconds):.4f} bytes {peak}")
    return True


if __name__ == "__main__":
    sys.exit(run_script("measure.py", __doc__, measure, sys.argv[1:], 1))
