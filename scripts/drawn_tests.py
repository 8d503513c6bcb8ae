"""Drawn tests, for `scripts/own_steps` and `scripts/every_slip`: loops that compute, load, store and branch forwards."""

import os
import sys

TOP = os.path.abspath(os.path.join(os.path.dirname(os.path.abspath(__file__)), ".."))
sys.path.insert(0, os.path.join(TOP, "reference"))

import draws                                                                          # noqa: E402
import isa                                                                            # noqa: E402
from assembler import words_of                                                        # noqa: E402
from draws import BASE, chance, encoded                                               # noqa: E402
from output import packed, plain_file                                                 # noqa: E402

CODE, TABLE, DATA = 0x10000, 0x18000, 0x20000
LINK, TABLE_BASE, LOOPS = 1, 3, 4  # what drawn tests have there, beside BASE


def body_words(drawn, size, room):
    """Words that compute, load and store within so many bytes from BASE on, and branch forwards."""
    words = []
    while len(words) < size:
        left, kind = size - len(words), drawn.random() * 100
        if kind < 55:
            word = draws.draw_computing(drawn, 0)
        elif kind < 80:
            is_load, at = chance(drawn, 50), drawn.choice([drawn.randrange(room - 7), drawn.randrange(room // 8) * 8])
            name, register = drawn.choice(draws.LOADS if is_load else draws.STORES), draws.draw_register(drawn)
            word = encoded(name, register, BASE, 0, at) if is_load else encoded(name, 0, BASE, register, at)
        elif kind < 92:
            word = encoded(drawn.choice(draws.BRANCHES), 0, draws.draw_register(drawn), draws.draw_register(drawn),
                           4 * drawn.randrange(1, min(left, 6) + 1))
        elif kind < 95:
            word = encoded(drawn.choice(["lui", "auipc"]), drawn.choice([5, 6, 7]), imm=drawn.randrange(-64, 64) << 12)
        else:
            word = drawn.choice([0x0FF0000F, encoded("jal", 0, imm=4 * drawn.randrange(1, min(left, 4) + 1))])
        if not set(isa.writes(isa.decode(word))) & {LINK, TABLE_BASE, LOOPS, BASE}:
            words.append(word)
    return words


def trap_words(drawn):
    """Words of which one traps."""
    return [0] if chance(drawn, 15) else list(words_of(drawn.choice([
        "ld x5, 0(x0)", "sd x5, 0(x0)", "jalr x0, 2(x0)", "beq x0, x0, 6", "jalr x0, 0(x0)", f"sw x6, 0(x{TABLE_BASE})",
        f"addi x5, x{BASE}, 0; ld x6, 0(x5); sd x6, 0(x5); addi x5, x5, 8; jal x0, -12"])))


def drawn_test(drawn, is_short, traps):
    """The bytes of a test: a loop, which may call functions by a table, and the end, with a trap before it or not."""
    room = drawn.choice([8, 8, 13, 20, 64, 200])
    size, times = (drawn.randrange(2, 9), drawn.choice([1, 1, 2])) if is_short else (drawn.randrange(6, 30), drawn.randrange(8, 60))
    words = list(words_of(f"lui x{BASE}, {DATA >> 12}; lui x{TABLE_BASE}, {TABLE >> 12}; addi x{LOOPS}, x0, {times}"))
    words += [] if is_short else draws.draw_values(drawn, drawn.randrange(10))
    loop, calls = body_words(drawn, size, room), not is_short and chance(drawn, 50)
    loop += words_of(f"ld x5, {drawn.choice([0, 8])}(x{TABLE_BASE}); jalr x{LINK}, 0(x5)") if calls else ()
    loop += words_of(f"addi x{LOOPS}, x{LOOPS}, -1")
    words += [*loop, *words_of(f"bne x{LOOPS}, x0, {-4 * len(loop)}"), *(trap_words(drawn) if traps else ()), *words_of("ecall")]
    starts = []
    for _ in range(2):
        starts.append(CODE + 4 * len(words))
        words += [*body_words(drawn, drawn.randrange(1, 8), room), *words_of(f"jalr x0, 0(x{LINK})")] if calls else []
    return plain_file([(b".text", 5, CODE, packed("I", words)), (b".rodata", 4, TABLE, packed("Q", starts)),
                       (b".data", 6, DATA, drawn.randbytes(room))], [])


def keep(script, name, data):
    """Keeps a test that a script found wanting, in a folder of out/."""
    folder = os.path.join(TOP, "out", script)
    os.makedirs(folder, exist_ok=True)
    with open(os.path.join(folder, name.replace(" ", "-")), "wb") as file:
        file.write(data)
