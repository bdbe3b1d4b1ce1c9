#!/usr/bin/env bash
# Feeds `sheet` bad inputs: bad-input.sh [COUNT [FIRST_SEED]] [--valgrind N]
# COUNT (100000) of them as it is, and with --valgrind N more under valgrind.
set -euo pipefail
. "$(dirname "$0")/build.sh"
count=100000
first=1
watched=0
numbers=0
while [ $# -gt 0 ]; do
    if [ "$1" = --valgrind ]; then
        watched=${2:?--valgrind needs a number}
        shift
    elif [ $numbers = 0 ]; then
        count=$1
        numbers=1
    else
        first=$1
    fi
    shift
done
compile bad-input -DWITHOUT_MAIN bad-input.c child.c interpreter.c cards.c
saved=$build/bad-input.bytes
if [ "$count" -gt 0 ]; then
    "$build/bad-input" "$sheet" "$count" "$first" "$saved"
fi
if [ "$watched" -gt 0 ]; then
    if ! command -v valgrind > /dev/null; then
        echo "valgrind is not installed" >&2
        exit 2
    fi
    echo "under valgrind:"
    "$build/bad-input" "$sheet" "$watched" "$first" "$saved" \
        valgrind -q --error-exitcode=99 --leak-check=full --errors-for-leak-kinds=definite,indirect,possible
fi
