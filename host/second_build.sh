#!/usr/bin/env bash
# second_build.sh ARCHIVE COPY [FRESH]: builds the archive from a copy of the sources in another folder
# and leaves it as COPY, so that the two can be compared byte for byte. With a third word the copy is first
# proved from nothing, every crate that the archive is made of.
set -euo pipefail
cd "$(dirname "$0")/.."

archive=$1
copy=$2
fresh=${3:-}
prover=${RT:-rt}

folder=$(mktemp -d)
trap 'rm -rf "$folder"' EXIT

mkdir -p "$folder/host" "$(dirname "$copy")"
cp -r Makefile crates.txt include "$folder"
cp host/Makefile.inc host/pages.mk host/build_archive.sh "$folder/host"
# The sources, and of what was proved before only the libraries: with those nothing is proved again but the exports.
find crates -regex 'crates/[^/]*/out' -prune -o -type f -print0 | xargs -0 cp --parents -t "$folder"
if [ -z "$fresh" ]; then
    find crates -path 'crates/*/out/rlib' -prune -print0 | xargs -0 -r cp -r --parents -t "$folder"
else
    (cd "$folder/crates/hislip_c" && "$prover" verdict)
fi
make -s -C "$folder" library RT="$prover"
cp "$folder/$archive" "$copy"
