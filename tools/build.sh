#!/usr/bin/env bash
# Proves and builds a crate: a program as crates/CRATE/out/CRATE, a library below crates/CRATE/out. What rt says is
# shown only where it fails; a program is run once, on no input.
# usage: tools/build.sh run|lib CRATE
set -eu
cd "$(dirname "$0")/../crates/$2"
if ! said=$(rt "$1" < /dev/null 2>&1); then
    printf '%s\n' "$said" >&2
    exit 1
fi
