#!/usr/bin/env bash
# Builds a C program with its C library for the simulator:
#
#     examples/c/build.sh program.c [words for the compiler].. > program.elf
#
# STACK=N before it sets the bytes of each core's stack, a multiple of 16 (8192). The library is picolibc; its printf prints
# no floating point, and is smaller, with the word -DPICOLIBC_INTEGER_PRINTF_SCANF.
set -eu -o pipefail
kit=$(cd "$(dirname "${BASH_SOURCE[0]}")" && pwd)
compiler=riscv64-unknown-elf-gcc

missing() {
    echo "build.sh: $1 is missing; on Debian: apt-get install gcc-riscv64-unknown-elf picolibc-riscv64-unknown-elf" >&2
    exit 2
}

[ $# -gt 0 ] || { sed -n '2,7s/^# \{0,1\}//p' "${BASH_SOURCE[0]}" >&2; exit 2; }
command -v "$compiler" >/dev/null || missing "the compiler $compiler"
"$compiler" --specs=picolibc.specs -E -include stdio.h -x c /dev/null >/dev/null 2>&1 || missing "picolibc for it"

made=$(mktemp)
trap 'rm -f "$made"' EXIT
"$compiler" --specs=picolibc.specs -march=rv32ima -mabi=ilp32 -std=gnu11 -O2 -Wall -Wextra -ffunction-sections -fdata-sections \
    -nostartfiles -static -s -I "$kit" -T "$kit/slacksim.ld" -Wl,--defsym=stack_size="${STACK:-8192}" \
    -Wl,-z,max-page-size=16 -Wl,--build-id=none -o "$made" "$kit/start.S" "$kit/slacksim.c" "$kit/locks.c" "$@"
cat "$made"
