#!/usr/bin/env bash
# Times `sheet` beside the interpreter: speed.sh [REPETITIONS]
# Prints a table, then how time grows with steps, tasks and objects; the growth is also drawn to
# docs/figures/growth.svg (or the file named in FIGURE), with its numbers in a .txt beside it.
set -euo pipefail
. "$(dirname "$0")/build.sh"
repetitions=${1:-15}
figure=${FIGURE:-$root/docs/figures/growth.svg}
data=${figure%.svg}.txt
interpreter=$build/interpreter
made=$build/growth
compile interpreter interpreter.c
compile timing timing.c
mkdir -p "$made" "$(dirname "$figure")"

# Sets the least processor times on a card, in milliseconds: of sheet, of the interpreter on a bench and serially.
time_card() {
    local card=$1 times
    if ! cmp -s <("$sheet" < "$card") <("$interpreter" < "$card"); then
        echo "the sheets of $card differ" >&2
        exit 1
    fi
    times=$("$build/timing" "$repetitions" "$card" "$sheet" -- "$interpreter" -- "$interpreter" serial)
    read -r sheet_ms bench_ms serial_ms <<< "$times"
}

steps_of() {
    "$interpreter" < "$1" | awk '$1 == "steps" { print $2 }'
}

card_of() { # card_of ORDER OBJECTS, with the lines on standard input
    local lines
    lines=$(cat)
    printf 'bench 2\nkind tally\norder %s\nobjects %d\n' "$1" "$2"
    for ((i = 0; i < $2; i++)); do echo 0; done
    printf 'lines %d\n%s\n' "$(wc -l <<< "$lines")" "$lines"
}

# 1000 steps for each of $1 rounds, by main alone.
steps_card() {
    printf '%s\n' "repeat 10" "repeat $(($1 / 10))" "repeat 199" "set n0 1" "set n0 2" "set n0 3" "set n0 4" "end" \
        "set n1 1" "set n1 2" "set n1 3" "end" "end" | card_of first 1
}

# $1 tasks that join to one object, each 255 times $2 times $3.
tasks_card() {
    printf '%s\n' "repeat $1" task "cm p0" "do" "repeat 255" "repeat $2" "repeat $3" "set n0 3" "join p0 n0" end end end end end |
        card_of turns 1
}

# 60 tasks, each amending what it declares on four of $1 objects.
objects_card() {
    for group in 0 1 2 3; do
        for pointer in 0 1 2 3; do
            echo "point p$pointer o$(((4 * group + pointer) % $1))"
        done
        printf '%s\n' "repeat 15" task "dfcm p0" "dfcm p1" "dfcm p2" "dfcm p3" do "set n0 1" "repeat 100" "repeat 10"
        for pointer in 0 1 2 3; do
            printf '%s\n' with "dfcm p$(((pointer + 3) % 4))" "cm p$pointer" cont "join p$pointer n0"
        done
        printf '%s\n' end end end end
    done | card_of turns "$1"
}

time_card "$here/speed/nothing.card"
idle_sheet=$sheet_ms
idle_bench=$bench_ms

echo "$(nproc) processors, $(gcc --version | head -n 1), processor time of whole processes, least of $repetitions"
echo "ratio: sheet to C on a bench"
printf '%-10s %9s %10s %8s %7s %12s\n' card steps "sheet ms" "C ms" ratio "C serial ms"
for name in nothing steps joins withs; do
    card=$here/speed/$name.card
    time_card "$card"
    printf '%-10s %9d %10.2f %8.2f %7.2f %12.2f\n' "$name" "$(steps_of "$card")" "$sheet_ms" "$bench_ms" \
        "$(awk "BEGIN { print $sheet_ms / $bench_ms }")" "$serial_ms"
done

# A row of growth: what grows, how far, steps, milliseconds of sheet and of C beyond those of a card with no lines.
growth_row() { # growth_row WHAT SIZE, with the card on standard input
    local card=$made/$1-$2.card
    cat > "$card"
    time_card "$card"
    awk -v what="$1" -v size="$2" -v steps="$(steps_of "$card")" -v sheet="$sheet_ms" -v c="$bench_ms" \
        -v idle_sheet="$idle_sheet" -v idle_c="$idle_bench" 'BEGIN {
            sheet -= idle_sheet; c -= idle_c
            printf "%-8s %8d %9d %10.2f %8.2f %14.1f %10.1f\n", what, size, steps, sheet, c, sheet * 1e6 / steps, c * 1e6 / steps
        }' | tee -a "$data"
}

echo
echo "growth, less the time of a card with no lines"
printf '%-8s %8s %9s %10s %8s %14s %10s\n' what size steps "sheet ms" "C ms" "sheet ns/step" "C ns/step" | tee "$data"
for thousands in 100 200 300 400 500 600 700 800 900 990; do
    steps_card $thousands | growth_row steps $((thousands * 1000))
done
while read -r tasks outer inner; do
    tasks_card "$tasks" "$outer" "$inner" | growth_row tasks "$tasks"
done <<< "1 5 248
2 4 155
4 2 155
8 1 155
16 1 77
32 1 38
48 1 25
62 1 19"
for objects in 1 2 4 8 12 16; do
    objects_card $objects | growth_row objects $objects
done
python3 "$here/growth.py" "$data" "$figure"
echo "drawn: $figure"
