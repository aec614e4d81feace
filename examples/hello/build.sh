#!/bin/sh
# Builds hello.elf. CC may name another compiler for RISC-V.
set -e
cd "$(dirname "$0")"
CC=${CC:-riscv64-linux-gnu-gcc}
$CC -march=rv64imac_zicsr -mabi=lp64 -mcmodel=medany -ffreestanding -fno-pic -fno-pie -fno-stack-protector \
    -c -o hello.o hello.S
$CC -march=rv64imac_zicsr -mabi=lp64 -nostdlib -static -no-pie \
    -Wl,--build-id=none -Wl,-z,max-page-size=4096 -Wl,--no-dynamic-linker -Wl,-T,link.ld -o hello.elf hello.o
rm hello.o
