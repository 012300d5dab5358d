#!/bin/bash
# Proves and builds programs and puts them into target/bin, from the repository root:
#   bash tests/program.sh NAME..
set -eu
mkdir -p target/bin
for program in "$@"; do
    (cd crates/"$program" && rt run </dev/null >/dev/null)
    cp crates/"$program"/out/"$program" target/bin/
done
