#!/usr/bin/env python3
"""Changes bytes of real files, many times, and checks how qed answers each of the files that come of it.

    scripts/change_bytes.py [--program PROGRAM] [--seed S] [--first I] [--count N] [--jobs J] [--keep FOLDER] [FILE ..]

The program is crates/qed/out/qed where nothing else is said. Without files those of crates/qed/data are taken, and what
the program makes of them: outputs, a generated test and a listing. File number I is made of one of them by the seed and I
alone, so `--first I --count 1 --keep FOLDER` makes one again and stores it. What was ELF is called with `run`, `transform`
and `list` in turn, and any other file with `asm`. A listing has a line for each word that may be executed, zeros of memory
among them, and takes as long as it is: so where these are 1 to 256 MiB, `run` stands for `list`.

An answer has one of the statuses of its command, with exactly the lines of docs/FORMATS.md that go with it. It takes at
most a second of processor time (--seconds) and 1 GiB of memory, IN is as it was, and OUT is there exactly where the call
is done. Other answers are printed and, with --keep, their files stored; then the status is 1. The counts of all statuses
come last, with the longest time and the greatest memory.
"""
import argparse
import os
import random
import re
import resource
import select
import struct
import subprocess
import sys
import tempfile
import time
from collections import Counter
from concurrent.futures import ProcessPoolExecutor
from pathlib import Path

TOP = Path(__file__).resolve().parent.parent
MEMORY = 2**30
# After so many seconds of processor time, or by the clock, a call is ended.
PATIENCE = (10, 300)

HEX = "0x[0-9a-f]{16}"
WORD = "0x[0-9a-f]{8}"
ELF_RULES = (
    "E1: magic|E2: class N|E3: encoding N|E4: version N|E5: type N|E6: machine N|E7: header shape"
    "|E8: (header|program table|section table|segment N|section N)|E9: segment N|E10: segments N and N|E11: section N"
    "|E12: symbol N|E13: section N, entry N"
)
ADMISSION_RULES = (
    f"A1: compressed|A2: dynamic|A3: segment N|A4: entry {HEX}|A5: part N|A6: address {HEX}, word {WORD}"
    f"|A7: address {HEX}, register N|A8: address {HEX}|A9: address {HEX}|A10: segment N"
    f"|A11: image end {HEX}[0-9a-f]?, half end {HEX}[0-9a-f]?"
)
CAUSES = f"fetch|word {WORD}|load {HEX}|store {HEX}|target {HEX}"
REGISTERS = "".join(f"x{i} {HEX}\n" for i in range(1, 32))


def pattern(text):
    return re.compile(text.replace("N", "[0-9]+").encode())


def refusals(rules, limits):
    """The lines of the statuses 3 and 4."""
    long = f"limit ({'|'.join(limits.split())}): N over N\n|" if limits else ""
    return {3: pattern(f"refused ({rules})\n"), 4: pattern(f"{long}limit L1: over N\n")}


def ends(outcome):
    return pattern(f"({outcome}) after N steps at {HEX}\n{REGISTERS}")


# What follows the file, and what each status of a command prints.
ANSWERS = {
    "run": (
        ["--steps", "1000"],
        {
            **refusals(ELF_RULES, "L5 L6 L10"),
            0: ends("ended"),
            10: ends("fired"),
            11: ends(f"trapped ({CAUSES})"),
            12: ends("going"),
        },
    ),
    "transform": (
        ["OUT"],
        {
            **refusals(f"{ELF_RULES}|{ADMISSION_RULES}", "L2 L3 L4 L5 L7 L8 L9 L10 L11"),
            0: pattern("code N bytes, entries N, pieces N, half N, register bound N, word bound (N|none)\n"),
        },
    ),
    "list": (
        [],
        {**refusals(ELF_RULES, "L5 L6 L10"), 0: pattern(f"([a-z0-9]+( [-x0-9a-f(), ]+)? # {HEX} {WORD}\n)*")},
    ),
    "asm": (["OUT"], {**refusals("S[1-6]: line N|S7: no instruction", ""), 0: pattern("code N words, data N words\n")}),
}
ELF_COMMANDS = ("run", "transform", "list")
PF_X = 1


def executed(file):
    """How many bytes of memory the segments have that may be executed, where the program headers are whole."""
    if len(file) < 64:
        return 0
    start, count = struct.unpack_from("<32xQ16xH", file)
    places = range(start, min(start + 56 * count, len(file) - 55), 56)
    headers = [struct.unpack_from("<4xI32xQ", file, at) for at in places]
    return sum(size for flags, size in headers if flags & PF_X)


def command_for(number, old, file):
    if not old.startswith(b"\x7fELF"):
        return "asm"
    command = ELF_COMMANDS[number % len(ELF_COMMANDS)]
    return "run" if command == "list" and 2**20 < executed(file) <= 2**28 else command


def changed(rng, old):
    """A file with some bytes and fields changed, more of them near its begin and its end, where the headers are."""
    new = bytearray(old)
    for _ in range(rng.choice((1, 1, 1, 2, 3, 5, 9))):
        near = rng.choice((64, 512, len(new), len(new)))
        at = rng.randrange(min(near, len(new)))
        if rng.random() < 0.25:
            at = len(new) - 1 - at
        size = rng.choice((1, 1, 2, 4, 8))
        bits = 8 * size
        value = rng.choice((rng.getrandbits(bits), 0, 1, (1 << bits) - 1, 1 << (bits - 1), len(new) % (1 << bits), rng.randrange(256)))
        new[at : at + size] = value.to_bytes(size, "little")
    if rng.random() < 0.06:
        del new[rng.randrange(len(new)) :]
    return bytes(new)


def begin_worker():
    """Sets limits, which the program inherits."""
    resource.setrlimit(resource.RLIMIT_AS, (MEMORY, MEMORY))
    resource.setrlimit(resource.RLIMIT_CORE, (0, 0))


def call(words, printed):
    """The status of a call, its processor time in seconds and its memory in KiB. What it prints goes to a file."""
    with open(printed, "wb") as out:
        ran = subprocess.Popen(words, stdin=subprocess.DEVNULL, stdout=out, stderr=subprocess.DEVNULL)
    resource.prlimit(ran.pid, resource.RLIMIT_CPU, (PATIENCE[0], PATIENCE[0]))
    # Such a descriptor can be read once the process has ended.
    process = os.pidfd_open(ran.pid)
    ended, _, _ = select.select([process], [], [], PATIENCE[1])
    os.close(process)
    if not ended:
        ran.kill()
    _, status, used = os.wait4(ran.pid, 0)
    ran.returncode = os.waitstatus_to_exitcode(status)
    return ran.returncode, used.ru_utime + used.ru_stime, used.ru_maxrss


def fault(command, args, file, status, seconds, folder):
    """What is wrong with an answer; None where nothing is."""
    wanted = ANSWERS[command][1]
    printed = (folder / "printed").read_bytes()
    if status not in wanted:
        return f"status {status}, printed {printed[:200]!r}"
    if not wanted[status].fullmatch(printed):
        return f"status {status}, but printed {printed[:200]!r}"
    if seconds > args.seconds:
        return f"{seconds:.2f} seconds"
    if (folder / "in").read_bytes() != file:
        return "IN has changed"
    there = sorted(it.name for it in folder.iterdir())
    stores = status == 0 and "OUT" in ANSWERS[command][0]
    if there != ["in", *["out"] * stores, "printed"]:
        return f"status {status}, and the files are {' '.join(there)}"
    return None


def answers(args, inputs, numbers):
    """Makes the files of these numbers and calls the program. Returns the counts, the faults, and the greatest costs."""
    counts, faults, slowest, largest = Counter(), [], (0, ""), (0, "")
    with tempfile.TemporaryDirectory() as name:
        folder = Path(name)
        for number in numbers:
            rng = random.Random(f"{args.seed} {number}")
            source, old = rng.choice(inputs)
            file = changed(rng, old)
            command = command_for(number, old, file)
            (folder / "in").write_bytes(file)
            more = [str(folder / "out") if it == "OUT" else it for it in ANSWERS[command][0]]
            status, seconds, memory = call([str(args.program), command, str(folder / "in"), *more], folder / "printed")
            wrong = fault(command, args, file, status, seconds, folder)
            where = f"file {number}, of {source}, {command}"
            if wrong:
                faults.append(f"{where}: {wrong}")
            if args.keep and (wrong or args.count == 1):
                args.keep.mkdir(parents=True, exist_ok=True)
                (args.keep / f"{number}_{command}").write_bytes(file)
            counts[command, status] += 1
            slowest, largest = max(slowest, (seconds, where)), max(largest, (memory, where))
            (folder / "out").unlink(missing_ok=True)
    return counts, faults, slowest, largest


def made_inputs(program, folder):
    """Files of the repository, and what the program makes of them."""
    given = sorted((TOP / "crates/qed/data").glob("*.elf"))
    generated = folder / "generated.elf"
    subprocess.run([program, "gen", generated, "--seed", "1", "--size", "1"], stdout=subprocess.DEVNULL, check=True)
    files = [*given, generated]
    for file in [*given, generated]:
        out = folder / f"{file.stem}_woven.elf"
        subprocess.run([program, "transform", file, out, "--sweep"], stdout=subprocess.DEVNULL, check=True)
        files.append(out)
    text = folder / "generated.s"
    text.write_bytes(subprocess.run([program, "list", generated], stdout=subprocess.PIPE, check=True).stdout)
    return [*files, text]


def arguments():
    parser = argparse.ArgumentParser(description=__doc__, formatter_class=argparse.RawDescriptionHelpFormatter)
    parser.add_argument("--program", type=Path, default=TOP / "crates/qed/out/qed")
    parser.add_argument("--seed", type=int, default=1)
    parser.add_argument("--first", type=int, default=0)
    parser.add_argument("--count", type=int, default=100_000)
    parser.add_argument("--jobs", type=int, default=1)
    parser.add_argument("--seconds", type=float, default=1.0)
    parser.add_argument("--keep", type=Path)
    parser.add_argument("files", type=Path, nargs="*")
    args = parser.parse_args()
    args.program = args.program.resolve()
    if not args.program.exists():
        sys.exit(f"{args.program} is not there: build it by `rt run` in crates/qed")
    return args


def main():
    args = arguments()
    begin = time.monotonic()
    with tempfile.TemporaryDirectory() as name:
        files = args.files or made_inputs(args.program, Path(name))
        inputs = [(it.name, it.read_bytes()) for it in files]
    counts, slowest, largest, bad = Counter(), (0, ""), (0, ""), 0
    numbers = range(args.first, args.first + args.count)
    parts = [numbers[i : i + 500] for i in range(0, args.count, 500)]
    with ProcessPoolExecutor(args.jobs, initializer=begin_worker) as pool:
        for some, faults, slow, large in pool.map(answers, [args] * len(parts), [inputs] * len(parts), parts):
            counts += some
            slowest, largest = max(slowest, slow), max(largest, large)
            for it in faults:
                print(it, flush=True)
            bad += len(faults)
    for (command, status), count in sorted(counts.items()):
        print(f"{command}: status {status}, {count} times")
    print(f"longest {slowest[0]:.3f} s of processor time: {slowest[1]}")
    print(f"most memory {largest[0]} KiB: {largest[1]}")
    print(f"{args.count} files of {len(inputs)}, seed {args.seed}, {time.monotonic() - begin:.0f} s: {bad} wrong")
    sys.exit(1 if bad else 0)


if __name__ == "__main__":
    main()
