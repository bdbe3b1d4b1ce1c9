# Read by the scripts of this folder: where things are, and how the C programs are built.
here=$(cd "$(dirname "${BASH_SOURCE[0]}")" && pwd)
root=$(dirname "$here")
sheet=${SHEET:-$root/crates/sheet/out/sheet}
build=${BUILD:-$root/target/beside}

if [ ! -x "$sheet" ]; then
    echo "$sheet is missing: build it, or name it in SHEET" >&2
    exit 2
fi
mkdir -p "$build"

compile() { # compile NAME SOURCE...
    local name=$1
    shift
    (cd "$here" && gcc -std=c11 -O2 -Wall -Wextra -o "$build/$name" "$@")
}
