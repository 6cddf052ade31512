#!/usr/bin/env bash
# Makes reference.txt anew, or any other file's text: what each workload of list.txt prints on this host, with threads in the place
# of cores. It must be the same with 1, 4 and 16 threads.
#
#     examples/workloads/reference.sh > examples/workloads/reference.txt
set -eu -o pipefail
cd "$(dirname "${BASH_SOURCE[0]}")"
room=$(mktemp -d)
trap 'rm -rf "$room"' EXIT
grep '^[a-z]' list.txt | while read -r name text words; do
    # shellcheck disable=SC2086  # the words are several
    ../c/host.sh "$text" $words >"$room/program"
    chmod +x "$room/program"
    printed=$("$room/program" 1)
    for cores in 4 16; do
        again=$("$room/program" "$cores")
        [ "$again" = "$printed" ] || { echo "$name: $printed with 1 core, $again with $cores" >&2; exit 1; }
    done
    echo "$name $printed"
done
