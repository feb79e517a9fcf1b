# For the scripts in the folders below, which source it: 'begin PROGRAM TWIN RUNS' goes to the root, proves and builds
# the program as "$program", builds its twin in Rust with -O as "$work/twin", and removes "$work" at the end.
set -eu
cd "$(dirname "$0")/../.."
begin() {
    tools/build.sh run "$1"
    program=crates/$1/out/$1
    runs=$3
    work=$(mktemp -d)
    trap 'rm -rf "$work"' EXIT
    rustc -O --edition 2024 -o "$work/twin" "$2"
}
