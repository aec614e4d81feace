#!/bin/sh
# Builds kernel.elf. CC may name another compiler for RISC-V.
set -e
cd "$(dirname "$0")"
CC=${CC:-riscv64-linux-gnu-gcc}
COMPILE="-march=rv64imac_zicsr -mabi=lp64 -mcmodel=medany -ffreestanding -fno-pic -fno-pie -fno-stack-protector"
LINK="-march=rv64imac_zicsr -mabi=lp64 -nostdlib -static -no-pie"
LINK="$LINK -Wl,--build-id=none -Wl,-z,max-page-size=4096 -Wl,--no-dynamic-linker"
$CC $COMPILE -c -o start.o start.S
$CC $COMPILE -O1 -fno-inline -fno-omit-frame-pointer -fno-optimize-sibling-calls -c -o kernel.o kernel.c
$CC $LINK -Wl,-T,link.ld -o kernel.elf start.o kernel.o
rm start.o kernel.o
