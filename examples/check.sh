#!/usr/bin/env bash
# check.sh FASTTRACK: compares what this program prints with what is stored here. Where there is a qemu-riscv32, each image must
# write there what it writes alone: the call that opens a region is unknown there, so originals run.
set -eu
fasttrack=$(realpath "$1")
cd "$(dirname "$0")"
got=$(mktemp)
trap 'rm -f "$got"' EXIT

same() { # FILE WHAT..
    cmp "$got" "$1"
    echo "as stored: ${*:2}"
}
trial() { # IMAGE REPORT INPUT
    "$fasttrack" trial "$1" < "$3" > "$got"
    same "$2" trial "$1"
}
emulated() { # IMAGE INPUT
    command -v qemu-riscv32 > /dev/null || return 0
    "$fasttrack" alone "$1" < "$2" > "$got"
    qemu-riscv32 "$1" < "$2" | cmp - "$got"
    echo "as in qemu: $1"
}

"$fasttrack" explain roots.elf --no-input > "$got"
same roots.explain explain roots.elf
for name in roots memory forms forms-gcc; do trial $name.elf $name.report /dev/null; done
for name in primes roots memory forms forms-gcc; do emulated $name.elf /dev/null; done
# These are there once picolibc/build.sh has built them.
for name in words words-gcc; do
    image=picolibc/out/$name.elf
    [ -f $image ] || continue
    trial $image picolibc/$name.report picolibc/words.txt
    "$fasttrack" alone $image < picolibc/words.txt > "$got"
    same picolibc/words.out alone $image
    emulated $image picolibc/words.txt
done
