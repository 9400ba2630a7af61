#!/bin/sh
# Runs `trial` on standard input, and ends with its exit code. It takes the proved program if that
# lies ready. Else it builds the program without proof, in about half a minute, and keeps nothing;
# `rt try` then adds a line or two to standard error, and gives up at 1 MiB of replies.
here=$(cd "$(dirname "$0")" && pwd) || exit 2
program=$("$here/program.sh")
if [ -n "$program" ]; then
    exec "$program" . trial
fi
"$here/needs_rt.sh" || exit 1
cd "$here/../crates/depot_cli" || exit 2
exec rt try -- . trial
