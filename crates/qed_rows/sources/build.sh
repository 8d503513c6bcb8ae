#!/bin/bash
# Builds machine.elf by GCC and tree.elf by Clang, the tests in C of data/outputs.rows. GCC, CLANG, LLD and STRIP name the tools:
# GCC 12.2, Clang and LLD 16.0, binutils 2.40. -n keeps the files without gaps.
set -e
cd "$(dirname "$0")"
flags="-march=rv64im -mabi=lp64 -ffreestanding -fno-pic -mcmodel=medany -O2 -nostdlib -static -Wl,-n"
for r in $(seq 14 31); do flags="$flags -ffixed-x$r"; done
${GCC:-riscv64-unknown-elf-gcc} $flags -T high.ld start.S machine.c memory.c -o machine.elf
${CLANG:-clang-16} --target=riscv64-unknown-elf $flags --ld-path="$(command -v "${LLD:-ld.lld-16}")" -T apart.ld start.S tree.c memory.c -o tree.elf
for test in machine.elf tree.elf; do
    ${STRIP:-riscv64-unknown-elf-strip} -s -R .riscv.attributes -R .comment $test
done
