#!/usr/bin/env bash
# Builds the images with a stock clang and lld that know RISC-V, with a stock GCC where there is one, and those of raw words.
# The stored images come from clang 14.0.6 and GCC 12.2.0, as Debian 12 has them; others give other bytes.
set -eu
cd "$(dirname "$0")"
flags=(-march=rv32im -mabi=ilp32 -O2 -ffreestanding -fno-pic -nostdlib -Wl,-T,guest.ld -Wl,--strip-all)
gcc=riscv64-unknown-elf-gcc

with_clang() { # FILE SOURCE..
    clang --target=riscv32 "${flags[@]}" -fuse-ld=lld -o "$1" start.s "${@:2}"
}
with_gcc() { # FILE SOURCE..
    $gcc "${flags[@]}" -Wl,--no-warn-rwx-segments -o "$1" start.s "${@:2}"
}

with_clang primes.elf primes.c
with_clang roots.elf region.s roots.c
with_clang memory.elf region.s memory.c
with_clang forms.elf region.s forms.c
# As C++ the forms are the same image.
cpp=$(mktemp)
trap 'rm -f "$cpp"' EXIT
with_clang "$cpp" region.s -x c++ forms.c
cmp "$cpp" forms.elf
if command -v $gcc > /dev/null; then
    with_gcc forms-gcc.elf region.s forms.c
    with_gcc "$cpp" region.s -x c++ forms.c
    cmp "$cpp" forms-gcc.elf
else
    echo "no $gcc here: forms-gcc.elf stays as it is" >&2
fi
python3 words.py exit0.elf 00000513 05D00893 00000073
python3 words.py trap.elf 00000000
# In the repository the gate runs this one; a copy of this folder has none.
data=../crates/fasttrack/data
if [ -d $data ]; then cp roots.elf $data/roots.elf; fi
