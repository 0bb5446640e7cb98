#!/bin/sh
# Compiles a C file for a part and prints the bundle's line `image`.
# It takes clang, ld.lld, llvm-objcopy and xxd, of any version that knows RV32IM.
set -e
cd "$(dirname "$0")"
source=${1:-squares.c}
made=$(mktemp -d)
trap 'rm -rf "$made"' EXIT
target="--target=riscv32-unknown-elf -march=rv32im -mabi=ilp32"
clang $target -c start.s -o "$made/start.o"
clang $target -O1 -ffreestanding -c "$source" -o "$made/main.o"
ld.lld -T link.ld "$made/start.o" "$made/main.o" -o "$made/all.elf"
llvm-objcopy -O binary "$made/all.elf" "$made/all.bin"
# An image is made of whole words.
while [ $(($(wc -c <"$made/all.bin") % 4)) -ne 0 ]; do printf '\000' >>"$made/all.bin"; done
printf 'image = "%s"\n' "$(xxd -p "$made/all.bin" | tr -d '\n')"
