#!/usr/bin/env python3
"""Says of a chip on which a check fired what differed, and which instructions of the test may have made the difference.

    scripts/fired.py LOG --in IN --out OUT [--program PROGRAM] [--most N] [OPTION of transform..]

LOG is what the loader of support/board printed, a log of gdb with `info registers`, or what `qed run OUT` printed; lines of
another form may stand between. IN is the test, OUT its output, and the options are those that OUT was made with. Of each check
that fired it prints the word of the new code, the block of the test, the two values and their differing bits, and the
instructions that may have made the difference since the last check, the nearest first; docs/CHIP.md says exactly which. Exit
status 1 if LOG has no fired check, or an incomplete dump; 2 for words and files that do not fit. Python's standard library
alone, and the reader of reference/.
"""

import argparse
import bisect
import heapq
import itertools
import os
import re
import signal
import sys
import tempfile
from collections import defaultdict, namedtuple

sys.dont_write_bytecode = True  # nothing is left in the folder of a package
from explained import Lines, Names, Stop, Words, add_options, lines_of, options_of, read_out, read_test, reference, said

HEAD = re.compile(r"(?:^|\s)(ended|fired|going|no code there|trapped(?: fetch| (?:word|load|store|target) 0x[0-9a-f]+)?)"
                  r"(?: after \d+ steps)? at (0x[0-9a-fA-F]{1,16})\s*$")
REGISTER = re.compile(r"(?:^|\s)(x\d+|pc|zero|ra|[sgtf]p|[ast]\d+)\s+0x([0-9a-fA-F]{1,16})(?=\s|$)")
ABI = ("zero ra sp gp tp t0 t1 t2 s0 s1 a0 a1 a2 a3 a4 a5 a6 a7 s2 s3 s4 s5 s6 s7 s8 s9 s10 s11 t3 t4 t5 t6").split()
NUMBERS = {**{name: number for number, name in enumerate(ABI)}, **{f"x{number}": number for number in range(32)}, "fp": 8, "pc": "pc"}
ORIGINALS, PAIR_DISTANCE = range(1, 14), 16
LINK, CURSOR, SIGNATURE, TEMPORARY, SPARE = 1, 15, 16, 30, 31
WORD = (1 << 64) - 1
LOW_COUNT, MOST_COUNT, LONGEST_ENTRY = 0xFFF, 2047, 12
RETURNS, JUMPS = -1, -2  # stand for the blocks that end in a JALR, by x1 and not
MOST_STATES = 20_000
DATA_ROLES, SIGNATURE_ROLES = ("visit", "sweep"), ("entry", "signature", "check")

TICK = "tick"

# What an instruction of the test does to the registers, where it stands in the new code, and the value if that is known.
Write = namedtuple("Write", "address register sources value")
# A guard or a comparison: from here on the register and its pair were equal.
Verified = namedtuple("Verified", "register")


def hexed(number):
    """A number as `qed` prints it."""
    return f"0x{number:016x}"


class Dump:
    """A dump of registers in a log: the number of its first line, what its head says, and its values."""

    def __init__(self, line, how=None, pc=None):
        self.line, self.how, self.values = line, how, {} if pc is None else {"pc": pc}
        self.has_line_of_pc = False

    def takes(self, number, value):
        """Takes a register, unless the dump has it already: then another dump begins."""
        if number == "pc" and not self.has_line_of_pc:
            self.has_line_of_pc = True
        elif number in self.values:
            return False
        self.values[number] = value
        return True

    @property
    def lacks(self):
        """The registers that it lacks, as a text."""
        missing = [f"x{number}" for number in range(1, 32) if number not in self.values] + ["pc"] * ("pc" not in self.values)
        return ", ".join(missing if len(missing) < 9 else [*missing[:3], "..", missing[-1]])

    def __getitem__(self, number):
        return self.values.get(number, 0)


def dumps_of(name):
    """The dumps of a log."""
    try:
        with open(name, encoding="utf-8", errors="replace") as file:
            yield from dumps_in(file)
    except OSError as error:
        raise Stop(f"{name}: {error.strerror}") from None


def dumps_in(lines):
    """The dumps of lines. A head begins one, and so does a register that the last one has already."""
    dump = None
    for number, line in enumerate(lines, 1):
        head, register = HEAD.search(line), REGISTER.search(line)
        if head:
            if dump:
                yield dump
            dump = Dump(number, head[1], int(head[2], 16))
        elif register and register[1] in NUMBERS:
            taken = NUMBERS[register[1]], int(register[2], 16)
            if not dump or not dump.takes(*taken):
                if dump:
                    yield dump
                dump = Dump(number)
                dump.takes(*taken)
    if dump:
        yield dump


# The output

class Output:
    """An output and its test: words with their roles, blocks, and what each block does to registers and checks of them."""

    def __init__(self, given):
        self.program, self.options, self.test_name = given.program, options_of(given), given.test
        self.file, self.test_file = read_test(given.out), read_test(given.test)
        self.entries = self.compare(given.out)
        self.names, self.lines = Names(self.test_file), Lines(given.test, self.test_file)
        self.words = Words(given.program, given.test, self.options)
        self.new = {old: new for new, old in self.entries}
        self.read_blocks()
        self.read_count()
        self.events = {}

    def compare(self, name):
        """Stops if OUT does not load what the options make of IN. Returns the pairs of a new and an input address, ascending."""
        with tempfile.TemporaryDirectory() as folder:
            made = os.path.join(folder, "made.elf")
            said(self.program, "transform", self.test_name, made, *self.options)
            other, entries = read_out(made)
        address = first_difference(self.file, other)
        if address is not None:
            raise Stop(f"{name} is not what these options make of {self.test_name}: at {hexed(address)} stands "
                       f"{word_at(self.file, address)} and not {word_at(other, address)}")
        return entries

    def read_blocks(self):
        """The instructions, the blocks, and from where each block is reached, by the pages of reference/."""
        reference()
        import isa
        from admission import Options, admit, blocks, reached
        from lean import goes_on
        from texts import Stopped
        from words import order_of
        self.isa = isa
        try:
            options = order_of(["transform", "in", "out", *self.options]).options()
            test = admit(self.test_file, Options(half=options.half))
        except Stopped as stopped:
            raise Stop(f"{self.test_name}: {stopped.text.strip()}") from None
        self.code = {int(line.split("# ")[1][:18], 16): isa.decode(int(line[-10:], 16))
                     for line in lines_of(said(self.program, "list", self.test_name))}
        self.blocks = {block.start: block for block in blocks(test, options)}
        self.leading = defaultdict(list)
        for block in self.blocks.values():
            for to in goes_on(block):
                self.leading[to].append(block.start)
        for block in self.blocks.values():
            if block.end and block.end.name == "jalr":
                self.leading[RETURNS if is_return(block.end) else JUMPS].append(block.start)
        self.reached = reached(test) if options.entries == "reached" else self.blocks.keys()
        self.is_lean = options.lean is not None

    def before(self, block):
        """The blocks that may lead to a block. All returns count as one that leads behind calls, and all other JALR as one."""
        call = self.code.get(block - 4)
        returns = RETURNS if call and call.name in ("jal", "jalr") and call.rd == LINK else JUMPS
        return self.leading[block] + ([returns] if block in self.reached else [])

    def read_count(self):
        """Of the lean form the count in x15 behind the check, and from there to that with which the test begins."""
        check = [self.words[at] for at in range(self.words.first, self.entries[0][0], 4)] if self.is_lean else []
        self.count_of_check = next((immediate(word) for word in reversed(check) if word.role == "check" and word.text.startswith("addi x15")), 0)
        self.first_count = MOST_COUNT - self.count_of_check

    def tick(self, block):
        """The steps that the tick of a block counts, 0 if it has none."""
        return next((immediate(self.words[at]) for at in self.addresses(block)[:LONGEST_ENTRY]
                     if self.words[at].role == "tick" and self.words[at].text.startswith("addi x15")), 0)

    def is_before_tick(self, block, pc):
        """Whether a word stands before the tick of its block."""
        return any(self.words[at].role == "tick" for at in self.addresses(block)[:LONGEST_ENTRY] if at > pc)

    def block_at(self, pc):
        """The block whose entry has an address of the new code, or None."""
        at = bisect.bisect_right(self.entries, (pc, WORD)) - 1
        return self.entries[at][1] if at >= 0 and self.words[pc].role != "stub" else None

    def addresses(self, block):
        """The addresses of the new code at which a block stands."""
        if block in (RETURNS, JUMPS):
            return range(0)
        at = bisect.bisect_right(self.entries, (self.new[block], WORD))
        after = self.entries[at][0] if at < len(self.entries) else self.words.last
        return range(self.new[block], after, 4)

    def decoded(self, address):
        """The instruction of a word of the new code."""
        word = word_at(self.file, address)
        return self.isa.decode(int(word, 16)) if word != "nothing" else None

    def written(self, address):
        """The register that a word of the new code writes, or 0."""
        writes = self.isa.writes(self.decoded(address) or self.isa.ZERO)
        return writes[0] if writes else 0

    def events_of(self, block, end=None):
        """What a block does up to a word of the new code: writes, and checks that have passed."""
        if (block, end) not in self.events:
            self.events[block, end] = list(self.new_events(block, end))
        return self.events[block, end]

    def new_events(self, block, end):
        """As above, in the order of the new code."""
        seen = set()
        for at in self.addresses(block):
            if at == end:
                return
            word = self.words[at]
            is_write = word.role == "original" or word.role == "leave" and self.written(at) in ORIGINALS
            if is_write and word.addresses not in seen:
                seen.add(word.addresses)
                write = self.write_of(word.addresses[0])
                if write:
                    yield write
            elif word.register in ORIGINALS and word.text == "ebreak":
                yield Verified(word.register)

    def write_of(self, address):
        """The write of an instruction of the test, or None. A jump writes the address behind it."""
        i = self.code[address]
        if i.group in ("jal", "jalr"):
            return Write(address, i.rd, (), address + 4) if i.rd else None
        rd = next(iter(self.isa.writes(i)), 0)
        sources = tuple(sorted({register for register in self.isa.reads(i) if register}))
        known = {"lui": i.imm & WORD, "auipc": address + i.imm & WORD, "addi": i.imm & WORD}.get(i.name) if not sources else None
        return Write(address, rd, sources, known) if rd else None

    def unsettled(self, block, pc):
        """The registers of which, at a word of a block, one half alone has been computed."""
        last = {}
        for at in self.addresses(block) if block is not None else ():
            if at >= pc:
                break
            word, register = self.words[at], self.written(at)
            half, number = divmod(register, PAIR_DISTANCE)
            if word.role in ("original", "mirror", "leave") and number in ORIGINALS:
                last[half, number] = word.addresses
        return {number for _, number in last if last.get((0, number)) != last.get((1, number))}

    def told(self, address):
        """An instruction of the test with its place."""
        text = self.isa.text_of(self.isa.encode(self.code[address])) if address in self.code else ""
        place = " ".join(part for part in (self.names.place(address), self.lines.line(address)) if part)
        return " ".join([hexed(address), text, *(["#", place] if place else [])]).rstrip()


def immediate(word):
    """The immediate of an ADDI, by its text."""
    return int(word.text.rsplit(" ", 1)[1])


def is_return(i):
    """Whether a JALR returns from a function: it jumps by x1 and keeps no address."""
    return i.rd == 0 and i.rs1 == LINK


def word_at(file, address):
    """The word of 4 bytes at an address of a file, as a text."""
    for segment in file.segments:
        if segment.is_load and segment.vaddr <= address and address + 4 <= segment.end:
            at = address - segment.vaddr
            return f"0x{int.from_bytes(segment.data[at:at + 4], 'little'):08x}"
    return "nothing"


def first_difference(one, other):
    """The address of the first word in which what two files load differs, or None."""
    parts = [{segment.vaddr: segment for segment in file.segments if segment.is_load} for file in (one, other)]
    for address in sorted({**parts[0], **parts[1]}):
        here, there = (part.get(address) for part in parts)
        if here is None or there is None:
            return address
        if here.data != there.data:
            pairs = enumerate(zip(here.data, there.data))
            return (address + next((at for at, (a, b) in pairs if a != b), min(here.filesz, there.filesz))) & ~3
        if here.memsz != there.memsz:
            return address + min(here.memsz, there.memsz) & ~3
    return None


# What may have made a difference

class Search:
    """Goes from a fired check backwards along all ways that the test may have come since the last check."""

    def __init__(self, output, dump, start, end, counted):
        """From the word `end` of the block `start`, or from its TICK; of the lean form with the steps that were counted since the last
        check, that tick among them, or else None."""
        self.output, self.dump, self.start, self.end, self.counted = output, dump, start, end, counted
        self.ticks = {}
        self.possible = self.possible_states() if counted is not None else None
        if self.possible is None:
            self.counted = None

    def tick(self, block):
        """The steps that the tick of a block counts."""
        if block not in self.ticks:
            self.ticks[block] = self.output.tick(block)
        return self.ticks[block]

    def behind(self, block, count):
        """What is left to count before a block's tick: None if the last check was called there, or if the way cannot be."""
        left = count - self.tick(block)
        return None if left < 0 or left == 0 and self.tick(block) else left

    def possible_states(self):
        """The blocks and counts on ways back that come to a check with no step left to count."""
        first, after, ends = (self.start, self.counted), defaultdict(list), []
        todo, seen = [first], {first}
        while todo:
            state = todo.pop()
            block, count = state
            left = self.behind(block, count)
            if count == self.tick(block) or left == self.output.first_count and block == self.output.test_file.entry:
                ends.append(state)
            for before in self.output.before(block) if left is not None else ():
                after[before, left].append(state)
                if (before, left) not in seen:
                    seen.add((before, left))
                    todo.append((before, left))
        found = set(ends)
        while ends:
            for state in after[ends.pop()]:
                if state not in found:
                    found.add(state)
                    ends.append(state)
        return found if first in found else None

    def fits(self, write, modified):
        """Whether a value that is known, and since then not changed, is one of the two in the dump."""
        register = write.register
        return write.value is None or register in modified or write.value in (self.dump[register], self.dump[register + PAIR_DISTANCE])

    def back(self, events, suspects, modified, found, distance):
        """Goes back over a block. Returns the registers that may have been wrong before it, those that were written since, and how
        many instructions that is, or None if the way cannot be."""
        here = {}
        for event in reversed(events):
            if isinstance(event, Verified):
                suspects = suspects - {event.register}
                continue
            distance += 1
            if not self.fits(event, modified):
                return None
            modified = modified | {event.register}
            if event.register in suspects:
                here.setdefault(event.address, distance)
                wrong = {source for source in event.sources if source in modified
                         or self.dump[source] != self.dump[source + PAIR_DISTANCE]}
                suspects = suspects - {event.register} | wrong
        for address, steps in here.items():
            found[address] = min(steps, found.get(address, steps))
        return suspects, modified, distance

    def candidates(self, register):
        """The instructions that may have made a register differ, each with how many instructions ago at least. If there are too many
        ways to follow each, those that meet at a block go on as one."""
        found = self.walk(register, MOST_STATES)
        return self.walk(register, None) if found is None else found

    def walk(self, register, most):
        """As above, with each way for itself, or None if that makes more than so many states; or with ways that go on as one."""
        found, seen, joined, number = {}, set(), {}, itertools.count()
        todo = [(0, next(number), (self.start, self.end, self.counted), frozenset({register}), frozenset())]
        while todo:
            distance, _, place, suspects, modified = heapq.heappop(todo)
            if most is None:
                suspects, modified = (one | other for one, other in zip(joined.get(place, (frozenset(),) * 2), (suspects, modified)))
                joined[place] = suspects, modified
            if (place, suspects, modified) in seen:
                continue
            seen.add((place, suspects, modified))
            if most is not None and len(seen) > most:
                return None
            for step in self.steps_back(place, suspects, modified, found, distance):
                heapq.heappush(todo, (step[0], next(number), *step[1:]))
        return found

    def steps_back(self, place, suspects, modified, found, distance):
        """Where a way goes on backwards from a place."""
        block, end, count = place
        came = self.back([] if end == TICK else self.output.events_of(block, end), suspects, modified, found, distance)
        left = None if count is None else self.behind(block, count)
        if not came or not came[0] or count is not None and left is None:
            return
        suspects, modified, distance = came
        for before in self.output.before(block):
            if self.possible is None or (before, left) in self.possible:
                yield distance, (before, None, left), suspects, modified


class Fired:
    """A fired check of a log, and what is said of it."""

    def __init__(self, output, dump):
        self.output, self.dump, self.pc = output, dump, dump["pc"]
        self.word = output.words[self.pc]
        self.in_check = output.block_at(self.pc) is None
        by_signature = dump[SIGNATURE] if dump[SIGNATURE] in output.new else None
        self.block = by_signature if self.in_check else output.block_at(self.pc)
        if self.word.role == "check" and dump[TEMPORARY] in output.new:
            self.block = dump[TEMPORARY]

    def lines(self, most):
        """What is printed."""
        yield from lines_of(said(self.output.program, "explain", self.output.test_name, *self.output.options, "--at", hexed(self.pc)))
        yield f"block {self.output.told(self.block)}" if self.block is not None else "block unknown: x16 names none"
        yield from self.values()
        if self.word.role in DATA_ROLES:
            yield f"word {hexed(self.dump[CURSOR])} {self.output.names.data(self.dump[CURSOR])}".rstrip()
        yield from self.what_made_it(most)

    def values(self):
        """The two values that the check compared, and their differing bits."""
        i = self.output.decoded(self.pc - 4)
        registers = [i.rs1, i.rs2] if i.group == "branch" else []
        pairs = [register for register in dict.fromkeys(registers) if register]
        if self.word.role == "leave" and all(register - PAIR_DISTANCE in ORIGINALS for register in pairs):  # those of a branch
            for register in pairs:
                yield from self.two(register - PAIR_DISTANCE, register)
            registers = []
        elif self.word.register in ORIGINALS and SPARE in registers:  # the base of a store, and of its mirror part
            yield from self.two(self.word.register, self.word.register + PAIR_DISTANCE)
        if registers:
            yield from self.two(*registers)

    def two(self, one, other):
        """The values of two registers, and their differing bits."""
        yield f"x{one} {hexed(self.dump[one])}"
        yield f"x{other} {hexed(self.dump[other])}"
        changed = self.dump[one] ^ self.dump[other]
        bits = [bit for bit in range(64) if changed >> bit & 1]
        if not bits:
            yield "they are equal now"
        elif len(bits) > 8:
            yield f"{len(bits)} bits differ: {hexed(changed)}"
        else:
            yield f"bit {bits[0]} differs" if len(bits) == 1 else f"bits {', '.join(map(str, bits))} differ"

    def roots(self):
        """The registers whose difference is to be explained: all that differ and are computed in both halves."""
        unsettled = set() if self.in_check else self.output.unsettled(self.block, self.pc)
        return [r for r in ORIGINALS if r not in unsettled and self.dump[r] != self.dump[r + PAIR_DISTANCE]]

    def what_made_it(self, most):
        """The instructions that may have made the difference."""
        roots = self.roots()
        others = [r for r in roots if r != self.word.register]
        if others and self.word.role != "leave":
            yield f"also {'differs' if len(others) == 1 else 'differ'}: {', '.join(f'x{r} and x{r + PAIR_DISTANCE}' for r in others)}"
        if self.word.role in DATA_ROLES:
            yield "a store made the difference since the word was last compared, or the word changed"
            return
        if not roots or self.word.role in SIGNATURE_ROLES:
            yield from self.went_astray()
        if roots and self.block is not None:
            yield from self.listed(roots, most)

    def listed(self, roots, most):
        """The instructions that may have made all these registers differ; if none may, those that may have made one differ."""
        search = self.search()
        found = [search.candidates(register) for register in roots]
        common = set.intersection(*map(set, found))
        if not common and len(roots) > 1:
            common = set.union(*map(set, found))
            if common:
                yield "no instruction explains all of these, so each below explains some"
        if self.output.is_lean and search.possible is None:
            yield "the count in x15 fits no way from a check to here, so all ways are followed"
        if not common:
            yield f"no instruction has written {' or '.join(f'x{r}' for r in roots)} since the last check: a register changed"
            return
        nearest = {address: min(part[address] for part in found if address in part) for address in common}
        order = sorted(common, key=lambda address: (nearest[address], address))
        self.output.lines.look_up(order)
        many = f"these {len(order)} instructions, the nearest first" if len(order) > 1 else "this instruction"
        yield f"since the last check the difference may have come from {many}:"
        for address in order[:most]:
            loads = self.output.code[address].group == "load"
            yield f"{self.output.told(address)}{' (or the word that it loads)' if loads else ''}"
        if len(order) > most:
            yield f"and {len(order) - most} more: --most {len(order)}"

    def search(self):
        """The search backwards from this check."""
        if not self.output.is_lean:
            return Search(self.output, self.dump, self.block, self.pc, None)
        counted = (self.dump[CURSOR] & LOW_COUNT) - self.output.count_of_check
        if self.in_check:
            return Search(self.output, self.dump, self.block, TICK, counted)
        if self.output.is_before_tick(self.block, self.pc):
            return Search(self.output, self.dump, self.block, TICK, counted + self.output.tick(self.block))
        return Search(self.output, self.dump, self.block, self.pc, counted)

    def went_astray(self):
        """The branch that may have gone the wrong way, if no register differs."""
        output, role = self.output, self.word.role
        if role == "leave":
            at_fault = {SIGNATURE: "x16 or this jump", TEMPORARY: "a look-up of this jump"}.get(output.decoded(self.pc - 4).rs1, "this branch")
            yield f"no register differs, so {at_fault} went wrong:"
            yield output.told(self.word.addresses[0])
        elif role in SIGNATURE_ROLES:
            here, meant = self.block, self.dump[SIGNATURE]
            yield f"x16 names the block {output.told(meant)}" if meant in output.new else "x16 names no block: it changed, or a jump went astray"
            wrong = [at for at, i in output.code.items() if i.group == "branch" and {at + 4, at + i.imm & WORD} == {here, meant}]
            if wrong:
                yield "a branch that leads to both blocks may have gone the wrong way:"
                yield from map(output.told, wrong)


def words():
    """The words of the call."""
    parser = argparse.ArgumentParser(description=__doc__.split("\n", 1)[0], allow_abbrev=False,
                                     epilog="Exit status: 1 if LOG has no fired check or an incomplete dump; 2 for words and files that do not fit.")
    parser.add_argument("log", metavar="LOG", help="what a board, gdb's `info registers` or `qed run OUT` printed")
    parser.add_argument("--in", dest="test", metavar="IN", required=True, help="the test")
    parser.add_argument("--out", metavar="OUT", required=True, help="its output, which was run")
    parser.add_argument("--most", metavar="N", type=int, default=20, help="list at most so many instructions (default: 20)")
    add_options(parser)
    given = parser.parse_args()
    if given.most < 1:
        parser.error("--most is at least 1")
    return given


def explain(output, dump, given):
    """Prints what is known of a dump. Returns whether it is one of a fired check, or None if it is not complete."""
    place = f"{given.log}:{dump.line}"
    if dump.how not in (None, "fired"):
        print(f"{place}: {dump.how}, no check fired")
        return False
    if dump.lacks:
        print(f"fired.py: {place}: the dump lacks {dump.lacks}", file=sys.stderr)
        return None
    if dump["pc"] not in output.words or output.words[dump["pc"]].text != "ebreak":
        print(f"{place}: no check stands at the pc {hexed(dump['pc'])}")
        return False
    print(f"{place}: a check fired at {hexed(dump['pc'])}")
    for line in Fired(output, dump).lines(given.most):
        print(line)
    return True


def main():
    """Reads the log, and explains its dumps."""
    given = words()
    dumps = list(dumps_of(given.log))
    output = Output(given)
    done = [explain(output, dump, given) for dump in dumps]
    if output.lines.note and True in done:
        print(f"fired.py: {output.lines.note}", file=sys.stderr)
    if True not in done and None not in done:
        print(f"fired.py: {given.log}: no dump of a fired check", file=sys.stderr)
    return int(None in done or True not in done)


if __name__ == "__main__":
    signal.signal(signal.SIGPIPE, signal.SIG_DFL)
    try:
        sys.exit(main())
    except Stop as stop:
        print(f"fired.py: {stop}", file=sys.stderr)
        sys.exit(2)
