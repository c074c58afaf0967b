#!/bin/sh
# Unpacks the sources of nalgebra 0.35.0, and of what it needs, into the folder that is named:
#
#     sh bench/fetch.sh FOLDER
#
# They are Debian's packages of the crates (suite unstable), from the archive that this machine's own apt sources name, checked
# by apt with the keys named there. Nothing is installed. About 1 MB.
set -eu

[ $# -eq 1 ] || { echo "usage: sh fetch.sh FOLDER" >&2; exit 2; }
mkdir -p "$1"
folder=$(cd "$1" && pwd)

# The archives of the machine's apt sources, in both of their forms, without those of security updates.
archives() {
    cat /etc/apt/sources.list.d/*.sources 2>/dev/null | sed -n 's/^URIs:[[:space:]]*//p' | tr ' ' '\n'
    cat /etc/apt/sources.list /etc/apt/sources.list.d/*.list 2>/dev/null \
        | sed -n 's/^deb[[:space:]]\{1,\}\(\[[^]]*\][[:space:]]*\)\{0,1\}\([^[:space:]]*\).*/\2/p'
}
archive=$(archives | grep '/debian/*$' | grep -v security | head -n 1 || true)
[ -n "$archive" ] || { echo "fetch.sh: no Debian archive in this machine's apt sources" >&2; exit 1; }
keys=$(cat /etc/apt/sources.list.d/*.sources 2>/dev/null | sed -n 's,^Signed-By:[[:space:]]*\(/[^[:space:]]*\).*,\1,p' | head -n 1)

work=$(mktemp -d)
trap 'rm -rf "$work"' EXIT
mkdir -p "$work/lists/partial" "$work/cache/archives/partial" "$work/debs" "$work/none"
: > "$work/status"
echo "deb ${keys:+[signed-by=$keys]} $archive unstable main" > "$work/sources.list"

# apt over folders of its own, so that the machine's lists and packages stay as they are.
own_apt() {
    apt-get -q -o Dir::State="$work" -o Dir::State::status="$work/status" -o Dir::Cache="$work/cache" \
        -o Dir::Etc::sourcelist="$work/sources.list" -o Dir::Etc::sourceparts="$work/none" \
        -o Dir::Etc::preferencesparts="$work/none" -o Acquire::Languages=none -o APT::Sandbox::User=root "$@"
}

own_apt update > "$work/log" 2>&1 || { cat "$work/log" >&2; exit 1; }
packages=
for crate in nalgebra simba approx num-complex num-rational num-bigint-0.4 num-integer num-traits typenum matrixmultiply \
    rawpointer autocfg wide safe-arch bytemuck; do
    packages="$packages librust-$crate-dev"
done
# Not quoted: a word for each package.
(cd "$work/debs" && own_apt download $packages) > "$work/log" 2>&1 || { cat "$work/log" >&2; exit 1; }
for package in "$work"/debs/*.deb; do
    dpkg-deb -x "$package" "$folder"
done

registry="$folder/usr/share/cargo/registry"
if [ ! -d "$registry/nalgebra-0.35.0" ]; then
    echo "fetch.sh: the archive has another nalgebra by now; it has:" >&2
    ls "$registry" >&2
    exit 1
fi
for crate in "$registry"/*/; do
    [ -f "$crate/.cargo-checksum.json" ] || echo '{"files":{},"package":null}' > "$crate/.cargo-checksum.json"
done
echo "NALGEBRA_REGISTRY=$registry"
