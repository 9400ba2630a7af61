#!/bin/sh
# Prints the path of the proved program if it lies ready and no source is newer. Else prints nothing.
top=$(cd "$(dirname "$0")/.." && pwd) || exit 2
program=$top/crates/depot_cli/out/depot_cli
newer_sources() {
    find "$top/crates.txt" "$top/crates" -name out -prune -o \
        '(' -name '*.rt' -o -name crates.txt ')' -newer "$program" -print
}
if [ -x "$program" ] && [ -z "$(newer_sources)" ]; then
    printf '%s\n' "$program"
fi
