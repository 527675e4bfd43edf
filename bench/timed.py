"""Runs a program, and prints the name and size of a file that it reads, its status, its time and its memory.

Usage: timed.py FILE PROGRAM WORD..
"""
import resource
import subprocess
import sys
import time
from pathlib import Path

file, command = Path(sys.argv[1]), sys.argv[2:]
begin = time.monotonic()
run = subprocess.run(command, stdout=subprocess.DEVNULL, stderr=subprocess.DEVNULL)
seconds = time.monotonic() - begin
memory = resource.getrusage(resource.RUSAGE_CHILDREN).ru_maxrss // 1024
print(f"{file.stem}: {file.stat().st_size} bytes, status {run.returncode}, {seconds:.2f} s, {memory} MB")
