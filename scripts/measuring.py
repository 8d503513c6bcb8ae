"""The time and the memory of a call, for `scripts/times` and `scripts/grow`. It needs GNU time."""

import os
import subprocess


def measured(program, words, folder):
    """The exit code, the seconds of processor time, and the bytes of memory. What a child of Python takes would have Python's memory in it."""
    told = os.path.join(folder, "time")
    done = subprocess.run(["/usr/bin/time", "-q", "-f", "%U %S %M", "-o", told, program, *words], cwd=folder, stdin=subprocess.DEVNULL,
                          stdout=subprocess.DEVNULL, stderr=subprocess.DEVNULL, check=False)
    with open(told, encoding="ascii") as file:
        user, system, memory = file.read().split()[-3:]
    return done.returncode, float(user) + float(system), int(memory) * 1024
