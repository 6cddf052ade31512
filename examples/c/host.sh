#!/usr/bin/env bash
# Builds a C program for this host, with threads in the place of cores, by its C compiler:
#
#     examples/c/host.sh program.c [words for the compiler].. > program && chmod +x program && ./program 4
set -eu -o pipefail
kit=$(cd "$(dirname "${BASH_SOURCE[0]}")" && pwd)
[ $# -gt 0 ] || { sed -n '2,4s/^# \{0,1\}//p' "${BASH_SOURCE[0]}" >&2; exit 2; }
command -v cc >/dev/null || { echo "host.sh: a C compiler is missing; on Debian: apt-get install gcc" >&2; exit 2; }

room=$(mktemp -d)
trap 'rm -rf "$room"' EXIT
flags=(-std=gnu11 -O2 -Wall -Wextra -pthread -I "$kit")
cc "${flags[@]}" -Dmain=each_core -c -o "$room/program.o" "$@"
cc "${flags[@]}" -o "$room/made" "$room/program.o" "$kit/host.c" "$kit/locks.c"
cat "$room/made"
