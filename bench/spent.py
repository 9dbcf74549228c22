#!/usr/bin/env python3
"""Runs a program, and prints its wall time, its own and the system's processor time in milliseconds, and how often its threads gave a
processor away and were made to.

usage: bench/spent.py FROM INTO WORD...

The words are run from the file FROM into the file INTO.
"""
import os
import sys
import time


def main():
    from_file, into_file, words = sys.argv[1], sys.argv[2], sys.argv[3:]
    start = time.monotonic()
    child = os.fork()
    if child == 0:
        os.dup2(os.open(from_file, os.O_RDONLY), 0)
        os.dup2(os.open(into_file, os.O_WRONLY | os.O_CREAT | os.O_TRUNC, 0o644), 1)
        os.execvp(words[0], words)
    status, used = os.wait4(child, 0)[1:]
    wall = time.monotonic() - start
    if status != 0:
        sys.exit(f"{' '.join(words)}: status {os.waitstatus_to_exitcode(status)}")
    print(f"{wall * 1000:.0f} {used.ru_utime * 1000:.0f} {used.ru_stime * 1000:.0f} {used.ru_nvcsw} {used.ru_nivcsw}")


if __name__ == "__main__":
    main()
