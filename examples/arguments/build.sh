#!/bin/sh
# Builds the program with clang and lld for RISC-V, into the file `/bin/arguments` of the folder `root`.
set -eu
cd "$(dirname "$0")"
clang --target=riscv64-unknown-elf -march=rv64i -mabi=lp64 -mcmodel=medany -mno-relax -O1 -Wall \
    -ffreestanding -fno-builtin -nostdlib -static -fuse-ld=lld \
    -Wl,--build-id=none -Wl,-z,max-page-size=4096 -Wl,-z,separate-code -Wl,-z,nognustack -Wl,--strip-all \
    -o root/%2Fbin%2Farguments arguments.c
