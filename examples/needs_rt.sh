#!/bin/sh
# Says that the toolchain is missing, if it is, and ends with 1.
if ! command -v rt > /dev/null; then
    echo "rt is not on the PATH: install the Rattle toolchain that README.md names" >&2
    exit 1
fi
