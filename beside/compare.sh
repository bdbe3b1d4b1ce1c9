#!/usr/bin/env bash
# Compares `sheet` with the interpreter: compare.sh [COUNT [FIRST_SEED]]
# On COUNT generated cards (20000) and on the cards of the repository.
set -euo pipefail
. "$(dirname "$0")/build.sh"
count=${1:-20000}
first=${2:-1}
compile compare -DWITHOUT_MAIN compare.c child.c interpreter.c cards.c
compile interpreter interpreter.c # these two to look into a difference
compile cards cards.c
shopt -s nullglob
exec "$build/compare" "$sheet" "$count" "$first" "$root"/examples/*.card "$root"/crates/tray/data/*.card
