#!/usr/bin/env bash
# Builds the printer, which proves all that it rests on, and prints the coach order of a fleet list of two operators.
# usage: examples/run.sh [LIST]
set -eu
cd "$(dirname "$0")/.."
tools/build.sh run printer
exec crates/printer/out/printer < "${1:-examples/lists/two_operators.txt}"
