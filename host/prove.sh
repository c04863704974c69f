#!/usr/bin/env bash
# prove.sh [PROVER]: has the prover check every crate of crates.txt, lowest first, over what earlier checks kept, and
# leaves in target/log what it said: NAME.say in full, NAME.out the verdict alone, with its time. Exit status 1 if a
# crate is not proved. `make evidence` reads these logs.
set -euo pipefail
cd "$(dirname "$0")/.."

prover=${1:-rt}
logs=$PWD/target/log
mkdir -p "$logs"
rm -f "$logs"/*.out "$logs"/*.say

status=0
for crate in $(sed -n 's/^\([a-z0-9_]*\)[ :].*/\1/p' crates.txt); do
    begun=$SECONDS
    if (cd "crates/$crate" && "$prover" check) >"$logs/$crate.say" 2>&1; then
        kept=
        # How much of the crate's proof was there already.
        if grep -Eq "^crate $crate: modules loaded=[1-9]" "$logs/$crate.say"; then kept=', over kept work'; fi
        verdict="proved ($((SECONDS - begun)) s$kept)"
    else
        verdict='NOT PROVED'
        status=1
    fi
    echo "rt: $crate $verdict" | tee "$logs/$crate.out"
done
exit $status
