# What the scripts of the examples share. They are called as examples/NAME/run [PROGRAM]. PROGRAM is the built `qed`; where
# it is not given it is the variable QED, and else crates/qed/out/qed, which `rt ci` and `rt run` in crates/qed leave.
set -euo pipefail
here=$(cd "$(dirname "$0")" && pwd)
program=$(realpath -m "${1:-${QED:-$here/../../crates/qed/out/qed}}")
support=$(realpath "$here/../../support")
qemu="qemu-system-riscv64 -machine virt -display none -monitor none -bios stub.elf"

# What is told on standard error is for who types the command, and differs by the compiler.
qed() { "$program" "$@" 2> "/dev/null"; }
qedcc() { "$support/qedcc" --qed "$program" "$@" 2> "/dev/null"; }

# Makes stub.elf: the stub of QEMU's board with the output woven.elf. More words go to the compiler.
board() {
    riscv64-unknown-elf-gcc @"$support/board/board.flags" -DOUTPUT='"woven.elf"' "$@" \
        -T "$support/board/board.ld" "$support/board/stub.S" "$support/board/board.c" -o stub.elf
}

# Tells what an example leaves out and why, in a line for examples/check.
left_out() { echo "left out: $*"; }

# Ends with status 77 if some of these tools are missing, and names each of them.
needs() {
    local tool missing=
    for tool; do command -v "$tool" > "/dev/null" || missing+=" $tool"; done
    [ -z "$missing" ] || { left_out "all, no$missing"; exit 77; }
}

# The newest Clang from 15 on that has its linker: an older one ignores -ffixed-x14.
clang_15() {
    local number
    for number in {25..15}; do
        if command -v "ld.lld-$number" > "/dev/null" && command -v "clang-$number"; then return; fi
    done
    return 1
}

# Prints a command as one would type it, what it prints, and its exit code where that is not 0.
show() {
    echo "\$ $*"
    eval "$*" || echo "(exit code $?)"
}

# Runs a function in a folder of its own, prints what it prints, and compares that with the file `prints`.
compared() {
    [ -x "$program" ] || { left_out "all, no program $program: call 'rt run' in crates/qed, or name another"; exit 77; }
    work=$(mktemp -d)
    trap 'rm -rf "$work"' EXIT
    cp "$here"/* "$work"
    (cd "$work" && "$@") 2>&1 | tee "$work/said"
    diff -u "$here/prints" "$work/said" || { echo "$here: prints something else than $here/prints"; exit 1; }
    rm -rf "$work"
}
