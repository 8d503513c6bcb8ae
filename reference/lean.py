"""The lean form of the new code (docs/PROFILE.md, "The lean form"; FORMATS.md, "Roles")."""

from __future__ import annotations

from itertools import groupby
from typing import Dict, List, NamedTuple, Set, Tuple

import isa
from admission import Block, Options, Test
from assembler import words_of
from isa import EBREAK, Instruction, encode
from machine import WORD
from texts import Exceeded
from weave import (DISTANCE, SIGNATURE, T, Bounds, Const, Go, Item, Part, Role, Woven, compare, guards, items_of, linked,
                   mirror_part, original_part, pair, size_of, starts_of, sweep, visit)

MOST_CODE = 1 << 20
MOST_OWED = 48
MOST_COUNT = 2047
LEAVE_STEPS = 27
OPPOSITE = {"beq": "bne", "bne": "beq", "blt": "bge", "bge": "blt", "bltu": "bgeu", "bgeu": "bltu"}


def cost(items: List[Item]) -> int:
    """The steps of straight items, where no check fires ("Bounds")."""
    return size_of(items, False) // 4 - items.count(encode(EBREAK))


def entry_steps(land: bool) -> int:
    """The steps of an entry whose tick passes ("Bounds")."""
    return 6 if land else 3


def instruction_steps(diverse: bool) -> int:
    """The most steps of an instruction in both its parts ("Bounds")."""
    return 8 if diverse else 6


def few_steps(options: Options) -> int:
    """The most steps of a block ("Words of the command line", `every`)."""
    return entry_steps(options.land) + LEAVE_STEPS + instruction_steps(options.diverse) * options.inst_max


def part_steps(i: Instruction, diverse: bool) -> int:
    """The steps that a tick counts for both parts of an instruction ("Ticks")."""
    if i.group == "store":
        return 5 if i.rs2 in (0, i.rs1) else 6
    if i.group == "load" or i.name == "auipc":
        return 7 if diverse else 4
    if i.name == "fence":
        return 6 if diverse else 1
    return 8 if diverse else 2


def store_parts(i: Instruction, address: int) -> List[Part]:
    """Both parts of a store, whose guard of the base leaves the address of the mirror part in x30 ("The lean form")."""
    base = words_of(f"add x30, x{pair(i.rs1)}, x14; sub x31, x30, x14; beq x{i.rs1}, x31, 8; ebreak")
    return [(Role("guard", (address,), i.rs1), [*base]), *guards("guard", (address,), () if i.rs2 == i.rs1 else (i.rs2,)),
            (Role("original", (address,)), [encode(i)]), (Role("mirror", (address,)), [encode(i._replace(rs1=T, rs2=pair(i.rs2)))])]


def piece(places: List[Tuple[int, Instruction]], diverse: bool) -> List[Part]:
    """A piece, in which each store has both parts together ("The lean form")."""
    parts: List[Part] = []
    for is_store, group in groupby(places, lambda place: place[1].group == "store"):
        several = [*group]
        if is_store:
            parts += (part for address, i in several for part in store_parts(i, address))
        else:
            parts += (part for address, i in several for part in original_part(i, address))
            parts += ((Role("mirror", (address,)), mirror_part(i, address, diverse)) for address, i in several)
    return parts


def look_up(register: int) -> List[Item]:
    """The entry of the input address in a register, into x30 ("The lean form")."""
    return [*words_of(f"add x31, x{register}, x14; add x31, x31, x14; lw x30, 0(x31); add x30, x30, x31")]


def goes_on(block: Block) -> List[int]:
    """Where a block goes on, but by a jump by register ("Ticks")."""
    end, at = block.end, block.end_address
    if end is None:
        return [at]
    after, target = at + 4 & WORD, at + end.imm & WORD
    return [target] if end.name == "jal" else [target, after] if end.group == "branch" else []


class Tick(NamedTuple):
    """Whether a block has a tick, and the most steps from its entry to the next one ("Ticks")."""
    stands: bool
    most: int


class Lean:
    """The lean form of a test with its blocks."""

    def __init__(self, test: Test, options: Options, blocks: List[Block]) -> None:
        self.test, self.options, self.blocks = test, options, blocks
        self.starts = {block.start for block in blocks}
        self.ticks = self.ticks_of()

    def ticks_of(self) -> Dict[int, Tick]:
        """The ticks by blocks ("Ticks")."""
        room = min(max(0, self.options.lean - few_steps(self.options) - 1), MOST_OWED)
        ticks: Dict[int, Tick] = {}
        from_behind: Set[int] = set()
        for block in reversed(self.blocks):
            leads = goes_on(block)
            from_behind.update(leads)
            by_register = room if block.end is not None and block.end.name == "jalr" else 0
            most = self.block_steps(block) + max((ticks[to].most for to in leads if to in ticks and not ticks[to].stands), default=by_register)
            ticks[block.start] = Tick(block.start == self.test.file.entry or block.start in from_behind or most > room, most)
        return ticks

    def block_steps(self, block: Block) -> int:
        """The most steps of a block, with those of a tick also where it has none ("Ticks")."""
        bodies = sum(part_steps(i, self.options.diverse) for i in block.body)
        return entry_steps(self.options.land) + bodies + self.leave_steps(block)

    def turn(self, start: int, to: int) -> List[Item]:
        """Turns the signature from one input address to another ("The lean form")."""
        distance = isa.signed(to - start)
        if distance == 0:
            return []
        if -2048 <= distance < 2048:
            return [*words_of(f"addi x16, x16, {distance}")]
        high = distance + 2048 >> 12
        return [encode(Instruction("lui", T, imm=high << 12)), encode(Instruction("addi", T, T, 0, distance - (high << 12))),
                *words_of("add x16, x16, x30")]

    def goes(self, start: int, to: int) -> List[Item]:
        """Turns the signature and goes to the entry."""
        return self.turn(start, to) + [Go(to)]

    def falls(self, start: int, to: int) -> List[Item]:
        """The same to the address behind a block, whose entry stands there where it has one."""
        return self.turn(start, to) + ([] if to in self.starts else [Go(to)])

    def sign(self, start: int) -> Part:
        """Tests that the signature has this address ("The lean form")."""
        return Role("signature", (start,)), [Const(T, start), *words_of("beq x16, x30, 8; ebreak")]

    def leave(self, block: Block) -> List[Part]:
        """The leave of a block ("The lean form")."""
        end, at, start = block.end, block.end_address, block.start
        role = Role("leave", (at,))
        if end is None:
            return [(role, self.falls(start, at))]
        if end.name == "zero":
            return [(role, [0])]
        if end.name == "ecall":
            return [*compare((), "end"), *self.distance("leave guard", (at,)), self.sign(start), *self.swept(),
                    (role, [*words_of("ecall")])]
        link: List[Item] = [Const(end.rd, at + 4 & WORD), Const(pair(end.rd), at + 4 & WORD)] if end.rd else []
        target, after = at + end.imm & WORD, at + 4 & WORD
        if end.name == "jal":
            return [(role, link + self.goes(start, target))]
        if end.name == "jalr":
            return [(role, [*words_of(f"addi x30, x{pair(end.rs1)}, {end.imm}; andi x30, x30, -2; add x16, x16, x30"), Const(T, start),
                            *words_of("sub x16, x16, x30")]),
                    *self.distance("leave guard", (at,)), *guards("leave guard", (at,), (end.rs1,)),
                    (role, [*words_of(f"addi x30, x{end.rs1}, {end.imm}; andi x30, x30, -2; beq x16, x30, 8; ebreak"),
                            *link, *look_up(T), *self.look_up_again()])]
        taken = self.confirms(end.name, end) + self.goes(start, target)
        over = encode(Instruction(OPPOSITE[end.name], 0, end.rs1, end.rs2, size_of(taken, False) + 4))
        return [(role, [over, *taken, *self.confirms(OPPOSITE[end.name], end), *self.falls(start, after)])]

    @staticmethod
    def confirms(name: str, branch: Instruction) -> List[Item]:
        """Fires where the pairs of a branch do not decide as this kind of branch does ("The lean form")."""
        return [encode(Instruction(name, 0, pair(branch.rs1), pair(branch.rs2), 8)), encode(EBREAK)]

    def distance(self, name: str, addresses: Tuple[int, ...], place: str = "") -> List[Part]:
        """Tests x14 ("The lean form", Distance)."""
        role = Role("leave", addresses) if addresses else Role(place)
        return [(role, [encode(Instruction("lui", T, imm=self.test.distance))]), *guards(name, addresses, (DISTANCE,), place)]

    def look_up_again(self) -> List[Item]:
        """Looks the entry of the signature up through x31 and x14, compares it with x30, and goes there ("The lean form")."""
        return [*words_of("add x31, x14, x14; add x31, x31, x16; lw x14, 0(x31); add x31, x31, x14"),
                encode(Instruction("lui", DISTANCE, imm=self.test.distance)), *words_of("beq x30, x31, 8; ebreak; jalr x0, 0(x30)")]

    def swept(self) -> List[Part]:
        """What stands before an ECALL with the sweep."""
        return [(Role("sweep"), sweep(self.test.data)), *compare((), "end")] if self.options.sweep else []

    def leave_steps(self, block: Block) -> int:
        """The steps that a tick counts for the leave: of a branch those of its longer way, of an ECALL those without the sweep."""
        end, at, start = block.end, block.end_address, block.start
        items = items_of(self.leave(block))
        if end is not None and end.group == "branch":
            ways = cost(self.goes(start, at + end.imm & WORD)), cost(self.falls(start, at + 4 & WORD))
            return 2 + max(ways)
        swept = items_of(self.swept()) if end is not None and end.name == "ecall" else []
        return cost(items) - cost(swept)

    def tick(self, block: Block, at: int) -> List[Part]:
        """The tick of a block, where it has one, which stands at an address ("The lean form")."""
        tick = self.ticks[block.start]
        if not tick.stands:
            return []
        told: List[Item] = [] if self.options.land else [Const(T, block.start)]  # with `land`, x30 has the address already
        over = 12 + size_of(told, False)
        call = encode(Instruction("jal", 0, imm=self.check_address() - (at + over)))
        counts = words_of(f"addi x15, x15, {tick.most}; slli x31, x15, 52; bge x31, x0, {over}")
        return [(Role("tick", (block.start,)), [*counts, *told, call, encode(EBREAK)])]

    def entry(self, block: Block, at: int) -> List[Part]:
        """The entry of a block, which stands at an address ("The lean form")."""
        parts: List[Part] = [self.sign(block.start)] if self.options.land else []
        parts += self.tick(block, at + size_of(items_of(parts), False))
        first = 0
        for length in block.pieces:
            parts += piece([(block.start + 4 * k, block.body[k]) for k in range(first, first + length)], self.options.diverse)
            first += length
        return parts + self.leave(block)

    def start(self) -> List[Item]:
        """What runs first ("The lean form")."""
        zeros = [word for r in (*range(1, 14), *range(17, 30)) for word in words_of(f"addi x{r}, x0, 0")]
        entry = self.test.file.entry
        return [*zeros, encode(Instruction("lui", DISTANCE, imm=self.test.distance)), Const(SIGNATURE, entry),
                *words_of(f"addi x15, x0, {MOST_COUNT}"), Go(entry)]

    def check_address(self) -> int:
        """Where the check stands."""
        return self.test.new_code + size_of(self.start(), False)

    def check(self) -> List[Part]:
        """The check ("The lean form")."""
        data = self.test.data
        first = data[0].start if data else self.test.base
        counts = f"sub x15, x15, x30; slli x15, x15, 12; addi x15, x15, {MOST_COUNT - self.options.lean}"
        role = Role("check")
        return [
            (role, [*words_of("beq x16, x30, 8; ebreak")]),
            *self.distance("compare", (), "check"),
            *compare((), "check"),
            (role, [*words_of("srli x15, x15, 12"), Const(T, first), *words_of("add x15, x15, x30")]),
            (Role("visit", (), None, "check"), visit(data, self.options.round)),
            (role, [Const(T, first), *words_of(counts)]),
            (Role("look-up"), [*look_up(SIGNATURE), *self.look_up_again()])]

    def parts(self, starts: List[int]) -> List[List[Part]]:
        """The new code but for the stub, where its entries stand there: what runs first with the check, and the entries."""
        return [[(Role("start"), self.start()), *self.check()], *(self.entry(block, at) for block, at in zip(self.blocks, starts))]

    def roles(self) -> List[Role]:
        """What each word of the new code is for ("Roles")."""
        parts = [part for some in self.parts([self.test.new_code] * len(self.blocks)) for part in some]
        return [role for role, items in parts for _ in range(size_of(items, False) // 4)] + [Role("stub")]

    def bounds(self) -> Bounds:
        """The bounds ("The lean form")."""
        ranges, words, options = len(self.test.data), self.test.data_words, self.options
        ends = 2 * ranges + 8 * words + 14 if options.sweep else 0
        check = 36 + (7 + 3 * (ranges if words else 1)) * options.round
        passes = entry_steps(options.land)
        calls = passes + (1 if options.land else 3)
        period = check + options.lean + calls
        early = 53 + calls
        visits = (-(-words // options.round) + 1) * period
        word, early_word = (early + ends + visits, early + visits) if words else (None, None)
        longest = LEAVE_STEPS + passes + calls + check + instruction_steps(options.diverse) * options.inst_max
        return Bounds(longest, early + ends + period, word, 31 + ends, early + period, early_word)


def weave_lean(test: Test, options: Options, blocks: List[Block]) -> Woven:
    """The lean form, by L11 ("The lean form")."""
    lean = Lean(test, options, blocks)
    sizes = [items_of(part) for part in lean.parts([test.new_code] * len(blocks))]
    starts = starts_of(sizes, test.new_code, False)
    if starts[-1] + 4 - test.new_code > MOST_CODE:
        raise Exceeded("L11", starts[-1] + 4 - test.new_code, MOST_CODE)
    entries = {block.start: start for block, start in zip(blocks, starts[1:])}
    words: List[int] = []
    for part, start in zip(lean.parts(starts[1:]), starts):
        words += linked(items_of(part), start, entries, starts[-1], False)
    return Woven(words + [0], blocks, entries, lean.bounds(), False, True)
