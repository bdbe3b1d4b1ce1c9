#!/usr/bin/env bash
# Tries the programs of refused/. Each must be refused, with the words of its first line; granted.txt, from which each
# of the others differs in a line or two, must run and print the words of its own.
#
# A program becomes a crate over `bench` in a copy of the crates. It is tried by `rt try`, which compiles from the
# sources with the refusals of a check but no proof. So a program takes seconds, whatever has been proved or built.
#
# usage: tools/refused.sh
set -euo pipefail
cd "$(dirname "$0")/.."
[ -f refused/granted.txt ]
copy=$(mktemp -d)
trap 'rm -rf "$copy"' EXIT
for crate in crates/*; do
    mkdir -p "$copy/$crate"
    for part in src specs proofs; do
        [ ! -d "$crate/$part" ] || cp -r "$crate/$part" "$copy/$crate"
    done
done
mkdir -p "$copy/crates/program/src"
{ cat crates.txt && echo 'program: kinds loading schedulers bench'; } > "$copy/crates.txt"

failed=0
for file in refused/*.txt; do
    words=$(head -n 1 "$file")
    tail -n +2 "$file" > "$copy/crates/program/src/main.rt"
    case $file in
        refused/granted.txt) want=0 wanted='runs and prints' ;;
        *) want=1 wanted='is refused with' ;;
    esac
    status=0
    said=$(cd "$copy/crates/program" && rt try 2>&1) || status=$?
    if [ -n "$words" ] && [ "$status" = "$want" ] && grep -qF -- "$words" <<< "$said"; then
        echo "$file $wanted: $words"
    else
        printf '%s\n' "$said"
        echo "not so: $file $wanted: $words (status $status)"
        failed=1
    fi
done
exit "$failed"
