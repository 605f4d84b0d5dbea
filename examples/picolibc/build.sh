#!/usr/bin/env bash
# build.sh [SOURCE.c]: builds words.c, or another program, with picolibc, into out/: with a stock clang and lld, and with GCC.
# It needs Debian's packages picolibc-riscv64-unknown-elf and gcc-riscv64-unknown-elf (for libgcc).
set -eu
source=$(realpath "${1:-$(dirname "$0")/words.c}")
cd "$(dirname "$0")"
name=$(basename "$source" .c)
gcc=riscv64-unknown-elf-gcc
picolibc=/usr/lib/picolibc/riscv64-unknown-elf
machine=(-march=rv32im -mabi=ilp32)
sources=(start.s ../region.s system.c "$source")
flags=("${machine[@]}" -O2 -fno-pic -ftls-model=local-exec -isystem $picolibc/include -nostdlib -Wl,-T,guest.ld -Wl,--strip-all)
libgcc=$($gcc "${machine[@]}" -print-libgcc-file-name)
libraries=(-L$picolibc/lib/rv32im/ilp32 -L"$(dirname "$libgcc")" -lc -lgcc)
mkdir -p out
clang --target=riscv32 "${flags[@]}" -fuse-ld=lld -o "out/$name.elf" "${sources[@]}" "${libraries[@]}"
$gcc "${flags[@]}" -Wl,--no-warn-rwx-segments -o "out/$name-gcc.elf" "${sources[@]}" "${libraries[@]}"
