#!/bin/bash
# Proves and builds the library for C and runs the differential test, from the repository root:
#   bash tests/differential.sh [seed] [scale]
# The scale multiplies the number of cases; below 1 not all has to be met.
set -eu
bash tests/library.sh
sources="tests/differential.c tests/compare.c tests/cases.c tests/reference.c"
cc -O2 -std=c99 -Wall -Wextra -pedantic -Iinclude $sources target/staticlib/libexports.a -o target/differential
exec target/differential "${1:-1}" "${2:-1}"
