"""Runs a program, and ends it by force so many milliseconds after a file begins to change: FILE MILLISECONDS COMMAND.. It says `killed`, or `done` if the program
had ended by then."""

import os
import subprocess
import sys
import time

path, delay, command = sys.argv[1], float(sys.argv[2]) / 1000, sys.argv[3:]
before = os.stat(path).st_mtime_ns
client = subprocess.Popen(command, stdout=subprocess.DEVNULL, stderr=subprocess.DEVNULL)
while os.stat(path).st_mtime_ns == before and client.poll() is None:
    pass
until = time.perf_counter() + delay
while time.perf_counter() < until:
    pass
client.kill()
print("killed" if client.wait() == -9 else "done")
