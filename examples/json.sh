#!/usr/bin/env bash
# Hands reports in JSON to a strict outside reader, python's json, where python3 is there: each is read, and is the
# compact text of what was read with its keys in order. Run it after `rt ci`.
set -euo pipefail
top=$(cd "$(dirname "${BASH_SOURCE[0]}")/.." && pwd)

if ! command -v python3 >/dev/null; then
    echo "json: python3 is missing, nothing was read"
    exit 0
fi

reads() {
    python3 -c '
import json, sys
text = sys.stdin.read()
assert text == json.dumps(json.loads(text), separators=(",", ":"), sort_keys=True) + "\n"'
}

"$top/slacksim" run --format json <"$top/examples/exit.slk1" | reads
"$top/slacksim" run --format json --cores 8 <"$top/examples/letters.slk1" | reads
"$top/slacksim" asm <"$top/examples/lock.s" | "$top/slacksim" run --format json --cores 4 --buses 4 | reads
"$top/slacksim" gen --format json --cores 8 --buses 2 | tail -n +2 | reads
echo "json: 4 reports read"
