#!/usr/bin/env bash
# build_archive.sh ARCHIVE PROVER CRATE..: proves the crates, static libraries, and writes what they export to one
# ARCHIVE, an object for each crate, in this order; nothing if the archive is there and neither it, nor a source,
# nor the prover has changed since. No object has a global symbol but its crate's exports, so none meets another's
# or a host's, and the same sources give the same bytes.
set -euo pipefail
cd "$(dirname "$0")/.."

archive=$1
prover=$2
shift 2
note=$archive.sum

command -v "$prover" >/dev/null || { echo "build_archive.sh: the prover \`$prover\` is not on the PATH" >&2; exit 1; }

# One sum over the prover, every source and the archive; what the prover keeps in crates/NAME/out is no source.
sum() {
    {
        "$prover" version
        echo "$*"
        find crates crates.txt "$archive" -regex 'crates/[^/]*/out' -prune -o -type f -print | LC_ALL=C sort | xargs sha256sum
    } | sha256sum
}

# The functions that a crate's sources export.
exports() {
    sed -n 's/^pub extern "C" fn \([a-z0-9_]*\).*/\1/p' "crates/$1"/src/*.rt | LC_ALL=C sort
}

# The global symbols of an object.
globals() {
    nm -g --defined-only "$1" | awk '{ print $3 }' | LC_ALL=C sort
}

if [ -f "$archive" ] && [ -f "$note" ] && [ "$(sum "$@")" = "$(cat "$note")" ]; then
    echo "$archive is that of these sources: nothing to prove"
    exit
fi
folder=$(mktemp -d)
trap 'rm -rf "$folder"' EXIT
for crate in "$@"; do
    (cd "crates/$crate" && "$prover" lib)
    (cd "$folder" && ar x "$OLDPWD/crates/$crate/out/lib$crate.a")
    if ! diff <(exports "$crate") <(globals "$folder/$crate.o") >&2; then
        echo "build_archive.sh: what $crate.o has as global symbols (>) is not what the crate exports (<)" >&2
        exit 1
    fi
done
(cd "$folder" && ar rcsD all.a "${@/%/.o}")
mkdir -p "$(dirname "$archive")"
cp "$folder/all.a" "$archive"
sum "$@" >"$note"
