#!/usr/bin/env bash
# A reduction comes from `reduce` alone, cannot be copied, and is used up by settling. No contract can say that a
# program does not compile, so this tries the programs: each offence must be refused with its own error, and its lawful
# neighbour must compile and run. `rt try` compiles a program before any proof: nothing is proved here.
set -eu
cd "$(dirname "$0")/.."
work=$(mktemp -d)
trap 'rm -rf "$work"' EXIT

# A repository of its own, with the crates that the programs stand on and a program `trial`.
mkdir -p "$work/crates/trial/src"
for lib in fault root scalar rows tridiagonal eigen; do
    mkdir "$work/crates/$lib"
    cp -r "crates/$lib/src" "$work/crates/$lib/src"
    if [ -d "crates/$lib/specs" ]; then cp -r "crates/$lib/specs" "$work/crates/$lib/specs"; fi
    grep "^$lib:" crates.txt >>"$work/crates.txt"
done
echo 'trial: eigen rows tridiagonal' >>"$work/crates.txt"

# A program whose body has a reduction of a table of side 1, and what it says of the program.
compile() {
    cat >"$work/crates/trial/src/main.rt" <<PROGRAM
#![tactic(auto)]

use eigen::settle;
use rows::NoRows;
use tridiagonal::{Reduction, assemble, reduce};

fn side_of(reduction: &Reduction<f64>) -> usize {
    reduction.side()
}

fn main() {
    let mut table = [1.0];
    let mut values = [0.0];
    let mut offs: [f64; 0] = [];
    let mut signs: [f64; 0] = [];
    let mut scratch: [f64; 0] = [];
    let mut q = [0.0];
    let mut keeper = NoRows::new(1);
    if let Ok(reduction) = reduce(1, &mut table, &mut values, &mut offs, &mut signs, &mut scratch) {
$1
    }
}
PROGRAM
    (cd "$work/crates/trial" && rt try) >"$work/said" 2>&1
}

refuses() {
    if compile "$3"; then
        echo "compile time: $1 compiles, and must not" >&2
        exit 1
    fi
    if ! grep -q "error\[$2\]" "$work/said" || grep 'error\[' "$work/said" | grep -qv "error\[$2\]"; then
        echo "compile time: $1 is refused otherwise than by $2:" >&2
        cat "$work/said" >&2
        exit 1
    fi
    echo "compile time: $1 is refused by $2"
}

accepts() {
    if ! compile "$2"; then
        echo "compile time: $1 does not compile, and must:" >&2
        cat "$work/said" >&2
        exit 1
    fi
    echo "compile time: $1 compiles"
}

settling='let _ = settle::<f64, NoRows>(reduction, &mut values, &mut offs, &mut keeper, 0.0, 1);'
assembling='let _ = assemble(&reduction, &table, &signs, &mut q);'

refuses 'settling twice' borrow-e0382 "$settling $settling"
accepts 'assembling twice' "$assembling $assembling"
refuses 'assembling after settling' borrow-e0382 "$settling $assembling"
accepts 'assembling, then settling' "$assembling $settling"
refuses 'copying a reduction' move-out-of-place 'let lent = &reduction; let _copy = *lent;'
accepts 'lending a reduction' 'let lent = &reduction; let _side = side_of(lent);'
refuses 'forging a reduction' private-field 'let _forged = Reduction { side: 1, largest: 1.0 }; let _side = side_of(&reduction);'
accepts 'reading a reduction' 'let _largest = reduction.largest(); let _side = side_of(&reduction);'
