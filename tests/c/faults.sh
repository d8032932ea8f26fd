#!/bin/bash
# Damaged libraries: 500 copies of the corpus library, half before and half after its sets. 200 have a byte of the packed form changed, 200 have two
# neighbouring bytes swapped, and 100 are cut short. Each is checked, run with a small stream and compiled through the C face (tests/face/answer.c), and
# every answer, the lent space with it, is held to the twin's. SEED chooses the copies. The last line counts the cases.
set -u
cd "$(dirname "$0")/../.." || exit 2
seed=${SEED:-1} copies=25 rounds=10
corpus=tests/corpus
out=target/fresh
mkdir -p "$out" target/c || exit 2
tools/cc tests/face/answer.c -o target/c/answer || exit 1
passed=0 failed=0
rm -f "$out/faults.numbers"

# One file of cases: so few copies at a time, since each takes more than a megabyte.
round() { # SEED STREAM...
    local said
    tools/twin make "$1" "$copies" faults "${@:2}" >"$out/faults.cases" || return 1
    tools/twin answer <"$out/faults.cases" >"$out/faults.twin" || return 1
    tools/engine target/c/answer <"$out/faults.cases" >"$out/faults.engine" || echo "faults: the engine ended with a failure"
    said=$(tools/compare "faults: seed $1" "$out/faults.cases" "$out/faults.twin" "$out/faults.engine" '1 2 3') || echo "$said"
    [[ $said =~ ([0-9]+)\ equal,\ ([0-9]+)\ not\ carried,\ ([0-9]+)\ different ]] || return 1
    passed=$((passed + BASH_REMATCH[1])) failed=$((failed + BASH_REMATCH[2] + BASH_REMATCH[3]))
    cut -d ' ' -f 1 "$out/faults.engine" >>"$out/faults.numbers"
}

for ((i = 0; i < rounds; i++)); do
    round $((seed + 2 * i)) $corpus/create-1.upd $corpus/create-2.upd || failed=$((failed + 1))
    round $((seed + 2 * i + 1)) $corpus/create-1.upd $corpus/create-2.upd $corpus/sets.upd || failed=$((failed + 1))
done
# How many are sound, and how many were refused by each number: of the check for each damage, which goes by the copy's place among five, and of each call.
awk '
    function tell(what,    n) {
        printf "%s: %d sound", what, seen[what, 0]
        for (n = 1; n <= most; n++) if ((what, n) in seen) printf ", %d of %d", seen[what, n], n
        print ""
    }
    BEGIN { split("check run compile", op, " "); split("byte changed|byte changed|bytes swapped|bytes swapped|cut short", damage, "|") }
    {
        seen[op[(NR - 1) % 3 + 1], $1]++
        if (NR % 3 == 1) seen[damage[int(NR / 3) % 5 + 1], $1]++
        if ($1 > most) most = $1
    }
    END { tell("byte changed"); tell("bytes swapped"); tell("cut short"); tell("check"); tell("run"); tell("compile") }' "$out/faults.numbers"
rm -f "$out"/faults.*
echo "$passed passed, $failed failed"
[ "$failed" -eq 0 ] && [ "$passed" -gt 0 ]
