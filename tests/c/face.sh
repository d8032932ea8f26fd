#!/bin/bash
# The stored cases through the C face (tests/face/answer.c): ops 1 to 5 and 9, held to the stored answers. The last line counts the cases.
set -u
cd "$(dirname "$0")/../.." || exit 2
out=target/face
mkdir -p "$out" target/c || exit 2
tools/cc tests/face/answer.c -o target/c/answer || exit 1
passed=0 failed=0
for file in tests/vectors/{random,forms,T-11}.cases tests/vectors/limits.cases.xz; do
    name=$(basename "${file%.xz}" .cases)
    if [ "$file" = "${file%.xz}" ]; then cp "$file" "$out/$name.cases"; else xz -dc "$file" >"$out/$name.cases"; fi
    tools/engine target/c/answer <"$out/$name.cases" >"$out/$name.engine" || echo "face: $file: the program ended with a failure"
    said=$(tools/compare "face: $file" "$out/$name.cases" "tests/vectors/$name.answers" "$out/$name.engine" '1 2 3 4 5 9') || failed=$((failed + 1))
    echo "$said"
    [[ $said =~ ([0-9]+)\ equal, ]] && passed=$((passed + BASH_REMATCH[1]))
    rm -f "$out/$name".*
done
echo "$passed passed, $failed failed"
[ "$failed" -eq 0 ] && [ "$passed" -gt 0 ]
