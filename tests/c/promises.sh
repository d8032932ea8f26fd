#!/bin/bash
# The promises on libraries and streams that the twin makes, from SEED or the time: 5,000 runs, of which more than 2,000 are cut, and 2,000 pairs of
# libraries, of which half are merged.
# Runs target/c/promises, which is compiled from promises.c; its last line counts. Cases that fail are kept.
set -u
cd "$(dirname "$0")/../.." || exit 2
seed=${SEED:-$(date +%s)}
cases=target/fresh/promises-$seed.cases
mkdir -p target/fresh || exit 2
{ tools/twin make "$seed" 5000 run && tools/twin make "$seed" 2000 merge; } >"$cases" || { echo "promises: the twin made no cases"; exit 1; }
echo "promises: seed $seed"
tools/engine target/c/promises "$cases" || exit 1
rm -f "$cases"
