#!/usr/bin/env python3
"""Prints files of rows with their answers, by the GNU assembler, its disassembler and QEMU: `by_gnu_and_qemu.py FILE.rows..`.

It does the lines `text`, `line`, `qed asm`, `qed list`, and `qed run` with changes before step 0, for texts without a fault and runs
that end. It needs binutils-riscv64-unknown-elf (the answers are those of 2.40) and qemu-user (of 7.2).
"""
import os
import re
import subprocess
import sys
import tempfile

BRANCHES = "beq bne blt bge bltu bgeu jal".split()
ECALL, EBREAK = 0x73, 0x100073
FAR = 1 << 20  # as far as a jump goes back


def tool(name, *words):
    return subprocess.run([f"riscv64-unknown-elf-{name}", *words], capture_output=True, text=True, check=True).stdout


def assemble(source):
    with open("t.s", "w") as file:
        file.write(f".option norelax\n.option norvc\n{source}\n")
    tool("as", "-march=rv64im", "-mabi=lp64", "-o", "t.o", "t.s")


def for_gnu(line):
    """A line as the GNU assembler takes it."""
    line = line.split("#")[0].strip()
    name, _, operands = line.partition(" ")
    *front, last = [operand.strip() for operand in operands.split(",")]
    if name in BRANCHES and re.fullmatch(r"-?\d+", last):
        return f"{name} {', '.join(front + [f'. + {last}'])}"
    if name == "fence":
        return f".insn i MISC_MEM, 0, {operands}"
    return {"zero": ".word 0", "word": f".word {operands}", ".word64": f".dword {operands}"}.get(name, line)


def shown(text, address):
    """A text of the disassembler, in the form of `list`."""
    name, _, operands = re.sub(r"\s*[#<].*", "", text).partition("\t")
    *front, last = operands.split(",")
    if name in BRANCHES:
        last = str(int(last, 16) - address)
    elif name in ("lui", "auipc"):
        last = f"0x{int(last, 16):05x}"
    elif last.startswith("0x"):
        last = str(int(last, 16))
    return f"{name} {', '.join(front + [last])}".strip()


class File:
    """What is made of a text: its code words, their texts, and its data as assembler text."""

    def __init__(self, lines):
        code, _, self.data = "\n".join(map(for_gnu, lines)).partition(".data")
        assemble(f".zero {FAR}\n{code}\n.zero {2 * FAR}")
        lines = [line.split("#")[0].strip() for line in lines]
        self.texts = [line for line in lines if re.match("[a-z]", line) and ":" not in line]
        end = FAR + 4 * len(self.texts)
        found = tool("objdump", "-dz", "-Mno-aliases,numeric", f"--start-address={FAR}", f"--stop-address={end}", "t.o")
        found = re.findall(r"^ *([0-9a-f]+):\t([0-9a-f]{8}) +\t(.*)$", found, re.M)
        self.words = [int(word, 16) for _, word, _ in found]
        for number, (address, _, text) in enumerate(found):
            # the texts of these are this project's own
            if not re.match("fence|zero|word", self.texts[number]):
                self.texts[number] = shown(text, int(address, 16))

    def assembled(self):
        return [f"code {len(self.words)} words, data {self.data.count('.dword')} words"]

    def listing(self):
        rows = enumerate(zip(self.texts, self.words))
        return [f"{text} # 0x{0x10000 + 4 * number:016x} 0x{word:08x}" for number, (text, word) in rows]

    def run(self, changes):
        """How the run stands at its ECALL, which QEMU gets as an EBREAK."""
        registers = "".join(f"li x{r}, {changes.get(str(r), 0)}\n" for r in range(1, 32))
        words = "".join(f".word {EBREAK if word == ECALL else word}\n" for word in self.words)
        assemble(f'.section .start, "ax"\n.globl start\nstart:\n{registers}jal x0, code\n.text\ncode:\n{words}.data\n{self.data}')
        tool("ld", "-Ttext=0x10000", "-Tdata=0x20000", "--section-start=.start=0x40000", "-e", "start", "-o", "t", "t.o")
        subprocess.run(["qemu-riscv64", "-singlestep", "-d", "nochain,cpu", "-D", "log", "./t"], stderr=subprocess.DEVNULL)
        with open("log") as file:
            states = file.read().split(" pc ")[1:]
        states = [state for state in states if int(state.split()[0], 16) < 0x40000]
        pc, last = states[-1].split()[0], dict(re.findall(r"(x\d+)/\w+ +([0-9a-f]{16})", states[-1]))
        if self.words[(int(pc, 16) - 0x10000) // 4] != ECALL:
            sys.exit("a run that does not end with an ECALL")
        return [f"ended after {len(states)} steps at 0x{pc}"] + [f"x{r} 0x{last[f'x{r}']}" for r in range(1, 32)]


def answer(rows):
    texts, files = {}, {}
    for row in rows:
        print(row)
        what, name, *rest = row.split(" ") + [""]
        if what == "text":
            texts[name] = []
        if what in ("text", "line"):
            texts[name].append(" ".join(rest))
        if what == "qed":
            if name == "asm":
                file = files[rest[1]] = File(texts[rest[0]])
                told = file.assembled()
            elif name == "list":
                told = files[rest[0]].listing()
            else:
                told = files[rest[0]].run(dict(re.findall(r" 0:x(\d+)=(\w+)", row)))
            print("\n".join(told + ["= 0"]))


names = [os.path.abspath(name) for name in sys.argv[1:]]
with tempfile.TemporaryDirectory() as folder:
    os.chdir(folder)
    for name in names:
        with open(name) as file:
            answer(file.read().splitlines())
