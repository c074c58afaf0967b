#!/bin/sh
# Builds the static library and runs a program over it and nalgebra (cargo.sh says where the crates come from):
#
#     sh bench/run.sh compare|speed|sheets|repeat [ARGUMENT..]
#
# sheets runs the program of the crate sheet_check, which is then built too.
set -eu

[ $# -ge 1 ] || { echo "usage: sh run.sh compare|speed|sheets|repeat [ARGUMENT..]" >&2; exit 2; }
program=$1
shift
here=$(cd "$(dirname "$0")" && pwd)
if [ "$program" = sheets ]; then
    (cd "$here/../crates/sheet_check" && rt run < /dev/null > "$here/program.log" 2>&1) || { tail -n 20 "$here/program.log" >&2; exit 1; }
fi
# The kit compiles the library for x86-64-v2, so nalgebra is compiled for it too. RUSTFLAGS, where it is set, counts in its place.
exec sh "$here/cargo.sh" bench run --release --quiet --config 'build.rustflags=["-C", "target-cpu=x86-64-v2"]' \
    --bin "$program" -- "$@"
