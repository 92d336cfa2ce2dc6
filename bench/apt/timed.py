"""timed.py SECONDS PROGRAM ..: runs a program, and tells its status, seconds and megabytes on standard error.

The peak of a process counts that of the one that starts it. So a small one has to: this one has ten megabytes.
"""
import os
import resource
import sys

limit, words = int(sys.argv[1]), sys.argv[2:]
child = os.fork()
if not child:
    resource.setrlimit(resource.RLIMIT_CPU, (limit, limit))
    os.dup2(os.open(os.devnull, os.O_WRONLY), 2)
    os.execv(words[0], words)
_, status, used = os.wait4(child, 0)
print(os.waitstatus_to_exitcode(status), used.ru_utime + used.ru_stime, used.ru_maxrss / 1024, file=sys.stderr)
