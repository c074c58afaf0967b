#!/bin/sh
# Builds the static library and runs cargo offline in a folder of the repository whose package links it:
#
#     sh bench/cargo.sh FOLDER COMMAND [WORD..]
#
# NALGEBRA_REGISTRY names a folder of crates (fetch.sh makes one); without it cargo takes what it has of its usual registry.
set -eu

[ $# -ge 2 ] || { echo "usage: sh cargo.sh FOLDER COMMAND [WORD..]" >&2; exit 2; }
here=$(cd "$(dirname "$0")" && pwd)
package=$(cd "$here/../$1" && pwd)
command=$2
shift 2
library="$here/../crates/symmetric_eigen_c"
(cd "$library" && rt lib > "$here/lib.log" 2>&1) || { tail -n 20 "$here/lib.log" >&2; exit 1; }

SYMMETRIC_EIGEN_C=$(cd "$library/out" && pwd)/libsymmetric_eigen_c.a
# What the library's memory comes from: the kit's calls of malloc and free.
RATTLE_HEAP=$(dirname "$(rt doc)")/c/liblibc_c.a
CARGO_TARGET_DIR=${CARGO_TARGET_DIR:-$package/target}
export SYMMETRIC_EIGEN_C RATTLE_HEAP CARGO_TARGET_DIR

if [ -n "${NALGEBRA_REGISTRY:-}" ]; then
    folder=$(cd "$NALGEBRA_REGISTRY" && pwd)
    set -- --config 'source.crates-io.replace-with="folder"' --config "source.folder.directory=\"$folder\"" "$@"
else
    echo "cargo.sh: NALGEBRA_REGISTRY is not set (see fetch.sh): cargo takes what it has kept of its usual registry" >&2
fi
cd "$package"
# Behind the command, since one like clippy is not given the options before it.
exec cargo "$command" --offline "$@"
