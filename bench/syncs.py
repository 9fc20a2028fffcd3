"""How the syncs of commands are counted, by strace(1)."""

import os
import shutil
import subprocess

# The calls that make durable what was written.
SYNCS = ("fsync", "fdatasync", "sync_file_range")

# How those of a command and of its threads are counted.
COUNTING = ("-c", "-f", "--seccomp-bpf", "-e", "trace=" + ",".join(SYNCS))


def tracer():
    """The path of strace, or None where there is none or it may trace nothing."""
    path = shutil.which("strace")
    if path is None:
        print("the syncs aren't counted: strace is missing")
        return None
    tried = subprocess.run(
        [path, *COUNTING, "-o", os.devnull, "true"],
        stdin=subprocess.DEVNULL,
        stdout=subprocess.DEVNULL,
        stderr=subprocess.DEVNULL,
        timeout=60,
        check=False,
    )
    if tried.returncode != 0:
        print("the syncs aren't counted: strace can't trace a program here")
        return None
    return path


def calls_in(path):
    """How many calls a summary of strace has, by its lines `% seconds usecs calls [errors] name`."""
    calls = 0
    with open(path, encoding="utf-8") as file:
        for line in file:
            words = line.split()
            if words and words[-1] in SYNCS:
                calls += int(words[3])
    return calls
