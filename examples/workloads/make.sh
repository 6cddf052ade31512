#!/usr/bin/env bash
# Makes the executables of list.txt anew, by the kit in examples/c. The project's tests don't run this.
set -eu -o pipefail
cd "$(dirname "${BASH_SOURCE[0]}")"
grep '^[a-z]' list.txt | while read -r name text words; do
    # shellcheck disable=SC2086  # the words are several
    ../c/build.sh "$text" $words >"$name.elf.part"
    mv "$name.elf.part" "$name.elf"
done
