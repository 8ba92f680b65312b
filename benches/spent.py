"""Runs a program, and prints its exit status, its user time in seconds, and how many bytes were resident at most.

usage: spent.py SECONDS WORD..

After so many seconds of processor time the program is killed. What is resident in the process that starts a program
counts with it. So this is a process of its own, which is small.
"""

import os
import resource
import subprocess
import sys


def main(seconds, words):
    resource.setrlimit(resource.RLIMIT_CPU, (seconds, seconds))
    started = subprocess.Popen(words, stdout=subprocess.DEVNULL, stderr=subprocess.DEVNULL)
    _, status, used = os.wait4(started.pid, 0)
    started.returncode = os.waitstatus_to_exitcode(status)
    print(started.returncode, used.ru_utime, 1_024 * used.ru_maxrss)


if __name__ == "__main__":
    main(int(sys.argv[1]), sys.argv[2:])
