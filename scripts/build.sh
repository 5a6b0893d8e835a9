#!/bin/sh
# Proves and builds the programs that are named, where they are not built yet: program NAME becomes crates/NAME/out/NAME.
cd "$(dirname "$0")/.." || exit 1
for name in "$@"; do
    built=crates/$name/out/$name
    [ -x "$built" ] && continue
    # A run builds the program first; what it does with no input counts for nothing here.
    said=$(cd "crates/$name" && rt run </dev/null 2>&1)
    [ -x "$built" ] || { printf '%s\n' "$said" >&2; exit 1; }
done
