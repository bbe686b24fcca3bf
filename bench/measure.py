#!/usr/bin/env python3
"""Runs a command and writes its peak memory in kilobytes to a file.

    measure.py FILE COMMAND..

For machines without GNU time.
"""
import resource
import subprocess
import sys

status = subprocess.call(sys.argv[2:])
with open(sys.argv[1], 'w') as out:
    out.write('%d\n' % resource.getrusage(resource.RUSAGE_CHILDREN).ru_maxrss)
sys.exit(status)
