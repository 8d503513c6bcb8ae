#!/usr/bin/env python3
"""Refuses each request for memory in turn, for every command of qed, and checks what comes of it.

    scripts/refuse_memory.py [--program PROGRAM] [--input FILE] [COMMAND ..]
    scripts/refuse_memory.py --by-rt N,N,.. [--input FILE] [COMMAND ..]

The program is crates/qed/out/qed, and the input the repository's test, where nothing else is said. Each command of
COMMANDS below, or only those that are named, is called with its first request refused, then its second, and so on until
it is done with none refused; once with that request refused alone, and once with all later ones as well. The program is
called with a small library before the C library's, which needs a C compiler (CC, or cc).

With --by-rt the requests with these numbers are refused by `rt try --fail-alloc`, which builds the program anew for each,
half a minute long, and runs it under the address sanitizer.

A call has to end in ten seconds, with the answer that it has with ample memory or for want of memory: status 7, with less
printed than else, nothing changed where nothing was printed, OUT whole where something was, and all other files as they
were. The status is 1 where a call does otherwise; such calls are printed.
"""
import argparse
import os
import subprocess
import sys
import tempfile
from dataclasses import dataclass
from pathlib import Path

TOP = Path(__file__).resolve().parent.parent
NO_MEMORY = 7
SECONDS = 10

TEXT = b"""        addi x10, x0, 7
next:
        addi x10, x10, -1
        bne x10, x0, next
        ecall
.data
        .word64 1
"""

# What is called: the words, in which `in`, `text` and `out` are files and `absent` is none, and what is at OUT before. A
# command that is new needs a line here and no more.
COMMANDS = [
    ("transform in out", None),
    ("transform in out --sweep --diverse", "old"),
    ("transform in out --lean --land", None),
    ("transform out out", "in"),
    ("transform text out", "old"),
    ("transform absent out", None),
    ("plan in", None),
    ("explain in --at 0x1309c", None),
    ("run in --steps 5 --fault 1:x10=5 --dump 0x10000:32", None),
    ("run in --steps 100 --reached", None),
    ("run in --steps 5 --fault 3:x10=5 --slip 1:result=9", None),
    ("list in", None),
    ("asm text out", None),
    ("asm text out", "old"),
    ("gen out --seed 1 --size 1", None),
    ("gen out --seed 1 --size 1", "old"),
    ("campaign in --seed 1 --count 4 --changes 2", None),
    ("campaign in --seed 1 --count 4 --only slips --results", None),
    ("harts in --turns 0 --steps 20", None),
    ("help run", None),
    ("version", None),
    ("transfrom in out", None),
]

NAMES = ("in", "text", "out", "absent")

# Counts the requests of the program, refuses the one of number FIRST up to that of number LAST, and tells the count.
LIBRARY = r"""
#include <stddef.h>
#include <stdio.h>
#include <stdlib.h>
extern void *__libc_malloc(size_t);
extern void *__libc_calloc(size_t, size_t);
extern void *__libc_realloc(void *, size_t);
static unsigned long count, first, last;
static int refused(void) {
    count++;
    return first <= count && count <= last;
}
void *malloc(size_t n) { return refused() ? NULL : __libc_malloc(n); }
void *calloc(size_t n, size_t m) { return refused() ? NULL : __libc_calloc(n, m); }
void *realloc(void *p, size_t n) { return refused() ? NULL : __libc_realloc(p, n); }
__attribute__((constructor)) static void begin(void) {
    first = strtoul(getenv("FIRST"), NULL, 10);
    last = strtoul(getenv("LAST"), NULL, 10);
    count = 0;
}
__attribute__((destructor)) static void end(void) {
    unsigned long told = count;
    last = 0;
    fprintf(stderr, "%lu\n", told);
}
"""


@dataclass
class Answer:
    """How a call ended, what it printed, and all files behind it."""

    status: int
    printed: bytes
    files: dict


def read_all(folder):
    return {it.name: it.read_bytes() for it in Path(folder).iterdir()}


class Calls:
    """Calls of one command, each over the same files in a folder of its own."""

    def __init__(self, args, words, at_out):
        self.args = args
        self.words = words.split()
        files = {"in": args.input.read_bytes(), "text": TEXT, "other": b"as it was"}
        if at_out:
            files["out"] = files.get(at_out, b"the old file")
        self.files = files

    def told(self, folder):
        """The command's words, with whole paths."""
        return [str(Path(folder, it)) if it in NAMES else it for it in self.words]

    def call(self, program, how):
        """The answer of one call, and what it wrote to standard error; None where it did not end in time."""
        with tempfile.TemporaryDirectory() as folder:
            for name, content in self.files.items():
                Path(folder, name).write_bytes(content)
            words = [*program, *self.told(folder)]
            try:
                ran = subprocess.run(words, capture_output=True, stdin=subprocess.DEVNULL, **how)
            except subprocess.TimeoutExpired:
                return None, b""
            return Answer(ran.returncode, ran.stdout, read_all(folder)), ran.stderr

    def refused(self, first, last):
        """The answer with the requests from one number to another refused, and how many were made."""
        env = {"LD_PRELOAD": self.args.library, "FIRST": str(first), "LAST": str(last)}
        answer, told = self.call([str(self.args.program)], {"env": env, "timeout": SECONDS})
        return answer, int(told.split()[-1]) if told.strip() else 0

    def refused_by_rt(self, number):
        program = ["rt", "try", "--fail-alloc", str(number), "--"]
        answer, _ = self.call(program, {"cwd": TOP / "crates/qed", "timeout": 600})
        return answer

    def fault(self, ample, answer):
        """What is wrong with an answer where memory was refused, by the one with ample memory; None where nothing is."""
        if answer is None:
            return "did not end in time"
        if answer == ample:
            return None
        if answer.status != NO_MEMORY:
            return f"status {answer.status}, not {ample.status} or {NO_MEMORY}"
        if not ample.printed.startswith(answer.printed) or answer.printed == ample.printed:
            return f"printed {answer.printed!r}"
        if answer.files == ample.files or (answer.files == self.files and not answer.printed):
            return None
        changed = [it for it in {*answer.files, *self.files} if answer.files.get(it) != self.files.get(it)]
        return f"changed {' '.join(sorted(changed))}, printed {answer.printed!r}"


def try_all(calls):
    """Refuses each request in turn. Returns how many there are, how many calls had no memory, and the faults."""
    ample, count = calls.refused(1, 0)
    lacking, faults, number = 0, [], 1
    while number <= count:
        for last in (number, 2**63):
            answer, made = calls.refused(number, last)
            lacking += answer is not None and answer.status == NO_MEMORY
            wrong = calls.fault(ample, answer)
            if wrong:
                faults.append(f"requests {number} to {last}: {wrong}")
            count = max(count, made if last == number else 0)
        number += 1
    return count, lacking, faults


def try_by_rt(calls):
    ample, _ = calls.call(["rt", "try", "--"], {"cwd": TOP / "crates/qed", "timeout": 600})
    lacking, faults = 0, []
    for number in calls.args.by_rt:
        answer = calls.refused_by_rt(number)
        lacking += answer is not None and answer.status == NO_MEMORY
        wrong = calls.fault(ample, answer)
        if wrong:
            faults.append(f"request {number}: {wrong}")
    return len(calls.args.by_rt), lacking, faults


def arguments():
    parser = argparse.ArgumentParser(description=__doc__, formatter_class=argparse.RawDescriptionHelpFormatter)
    parser.add_argument("--program", type=Path, default=TOP / "crates/qed/out/qed")
    parser.add_argument("--input", type=Path, default=TOP / "crates/qed/data/two_sums.elf")
    parser.add_argument("--by-rt", type=lambda text: [int(it) for it in text.split(",")])
    parser.add_argument("command", nargs="*")
    args = parser.parse_args()
    args.program = args.program.resolve()
    if not args.by_rt and not args.program.exists():
        sys.exit(f"{args.program} is not there: build it by `rt run` in crates/qed")
    return args


def main():
    args = arguments()
    bad = 0
    with tempfile.TemporaryDirectory() as folder:
        args.library = os.path.join(folder, "refuse.so")
        if not args.by_rt:
            compiler = [os.environ.get("CC", "cc"), "-shared", "-fPIC", "-O1", "-x", "c", "-", "-o", args.library]
            subprocess.run(compiler, input=LIBRARY.encode(), check=True)
        for words, at_out in COMMANDS:
            if args.command and words.split()[0] not in args.command:
                continue
            calls = Calls(args, words, at_out)
            count, lacking, faults = try_by_rt(calls) if args.by_rt else try_all(calls)
            before = f", {at_out} at OUT" if at_out else ""
            print(f"{words}{before}: {count} requests, {lacking} calls without memory, {len(faults)} wrong", flush=True)
            for fault in faults:
                print(f"  {fault}", flush=True)
            bad += len(faults)
    sys.exit(1 if bad else 0)


if __name__ == "__main__":
    main()
