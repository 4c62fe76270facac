#!/usr/bin/env python3
"""Feeds the program 200 MiB of lines that are no command, and prints its time and the most memory that it held.

Usage: bench/long_input.py [PROGRAM], which is ./vfsh at the top of the repository if it is not given. Fails where the
program ends with another status than 0, answers another number of bytes, or held 16 MiB or more.
"""
import os
import subprocess
import sys
import threading
import time

TOP = os.path.dirname(os.path.dirname(os.path.abspath(__file__)))
LINE = b"no command, sixty-four letters long, which is answered bad-line\n"
REPLY = b"error bad-line\n"
INPUT = 200 * 1024 * 1024
MOST = 16 * 1024


def feed(pipe, count):
    block = LINE * 1024
    for _ in range(count // 1024):
        pipe.write(block)
    pipe.close()


def held(pid):
    """The most KiB that the process has held so far, 0 where it is gone."""
    with open(f"/proc/{pid}/status") as lines:
        return next((int(line.split()[1]) for line in lines if line.startswith("VmHWM")), 0)


def main():
    program = sys.argv[1] if len(sys.argv) > 1 else os.path.join(TOP, "vfsh")
    subprocess.run([program, "main"], stdin=subprocess.DEVNULL, stdout=subprocess.DEVNULL, check=True)
    count = INPUT // len(LINE) // 1024 * 1024
    begin = time.monotonic()
    shell = subprocess.Popen([program, "main"], stdin=subprocess.PIPE, stdout=subprocess.PIPE)
    feeder = threading.Thread(target=feed, args=(shell.stdin, count))
    feeder.start()
    answered, peak = 0, 0
    while block := shell.stdout.read(1 << 16):
        answered += len(block)
        peak = max(peak, held(shell.pid))
    feeder.join()
    status = shell.wait()
    seconds = time.monotonic() - begin
    print(f"{count * len(LINE)} bytes in, {answered} bytes out, {seconds:.1f} s, at most {peak} KiB")
    if status != 0 or answered != len(b"open 0\n") + count * len(REPLY) or not 0 < peak < MOST:
        sys.exit(f"status {status}, {count} lines: not as expected")


main()
