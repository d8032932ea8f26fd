#!/bin/bash
# The compile program over the stored inputs of tests/program: what it writes of NAME.lib is NAME.out, and of row-N a line of row N.
# 52 and the limit before it are made here. The last line is 'N passed, M failed'.
set -u
top=$(cd "$(dirname "$0")/../.." && pwd -P)
got=$top/target/program
mkdir -p "$got" || exit 2
passed=0 failed=0

# The program over standard input, held to a file.
same() { # WHAT EXPECTED
    if "$top/tools/engine" compile_file >"$got/out" && cmp "$got/out" "$2"; then passed=$((passed + 1)); else
        failed=$((failed + 1))
        echo "FAILED: $1"
    fi
}

for input in "$top"/tests/program/*.lib; do
    name=$(basename "$input" .lib)
    expected=${input%.lib}.out
    if [ -f "$expected.xz" ]; then
        xz -dc "$expected.xz" >"$got/expected"
        expected=$got/expected
    fi
    same "$name" "$expected" <"$input"
    case $name in
    row-*) grep -q "^REFUSED ${name#row-} " "$expected" || { echo "FAILED: $name is of another row"; failed=$((failed + 1)); } ;;
    esac
done

# both sides of the longest input; the first is 4,096 words that are no header
echo 'REFUSED 2 0' >"$got/expected"
same 'input of 30,720 bytes' "$got/expected" < <(head -c 30720 /dev/zero)
echo 'REFUSED 52 0' >"$got/expected"
same 'input of 30,721 bytes' "$got/expected" < <(head -c 30721 /dev/zero)
same 'input of 100,000 bytes' "$got/expected" < <(head -c 100000 /dev/zero)

for row in 1 2 3 4 5 6 7 8 9 10 40 41 42 43 44 50 51; do
    [ -f "$top/tests/program/row-$row.lib" ] || { echo "FAILED: no input of row $row"; failed=$((failed + 1)); }
done
echo "$passed passed, $failed failed"
[ "$failed" -eq 0 ]
