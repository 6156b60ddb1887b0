#!/usr/bin/env python3
"""Runs a fuzzer for a number of seconds of processor time: processor.py SECONDS COMMAND..

libFuzzer's own limit is one of the clock, which is another time where other work goes first. At the limit it is sent SIGUSR1, at which libFuzzer
ends after the input that it is at, and prints its last lines. The last line on standard error is the processor time. The status is the command's."""
import os
import resource
import signal
import subprocess
import sys
import time

EACH = 0.5


def used(number):
    """The seconds of processor time of a process."""
    with open(f"/proc/{number}/stat") as it:
        fields = it.read().rpartition(") ")[2].split()
    return (int(fields[11]) + int(fields[12])) / os.sysconf("SC_CLK_TCK")


def main(seconds, command):
    running = subprocess.Popen(command)
    while running.poll() is None:
        if used(running.pid) >= seconds:
            running.send_signal(signal.SIGUSR1)
        time.sleep(EACH)
    spent = resource.getrusage(resource.RUSAGE_CHILDREN)
    print(f"stat::processor_seconds: {spent.ru_utime + spent.ru_stime:.0f}", file=sys.stderr)
    return running.returncode


if __name__ == "__main__":
    if len(sys.argv) < 3:
        sys.exit(__doc__)
    sys.exit(main(float(sys.argv[1]), sys.argv[2:]))
