#!/usr/bin/env python3
"""measured.py INPUT OUTPUT PROGRAM WORD.. runs a program, and prints its status, seconds by the clock, processor seconds, and
the most memory that it held at once, in KiB. It stands alone and imports little: what a process held before it became the
program would be counted too."""

import os
import sys
import time

begun = time.monotonic()
child = os.fork()
if child == 0:
    os.dup2(os.open(sys.argv[1], os.O_RDONLY), 0)
    os.dup2(os.open(sys.argv[2], os.O_WRONLY | os.O_CREAT | os.O_TRUNC, 0o600), 1)
    os.execv(sys.argv[3], sys.argv[3:])
_, ended, used = os.wait4(child, 0)
seconds = time.monotonic() - begun
print(os.waitstatus_to_exitcode(ended), "%.3f" % seconds, "%.3f" % (used.ru_utime + used.ru_stime), used.ru_maxrss)
