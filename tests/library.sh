#!/bin/bash
# Proves and builds the library for C and puts it at target/staticlib/libexports.a, from the repository root:
#   bash tests/library.sh
set -eu
(cd crates/exports && rt lib >&2)
mkdir -p target/staticlib
cp crates/exports/out/libexports.a target/staticlib/
