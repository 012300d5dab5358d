#!/bin/bash
# Proves and builds the library for C and measures the stack that each function takes, from the repository root:
#   bash tests/stack.sh
# The figures that it is held to are read from the header: "Stack: N bytes" in the comment above each function.
set -eu
bash tests/library.sh
sources="tests/stack.c tests/cases.c tests/reference.c"
# -z now: no symbol is looked up during a measured call.
cc -O2 -std=c99 -Wall -Wextra -pedantic -Iinclude $sources target/staticlib/libexports.a -Wl,-z,now -o target/stack
stated=$(awk 'match($0, /Stack: [0-9]+ bytes/) { figure = substr($0, RSTART + 7, RLENGTH - 13) }
    match($0, /gidzkhalu_[a-z_]+\(/) { print substr($0, RSTART + 10, RLENGTH - 11) "=" figure; figure = "" }' \
    include/gidzkhalu.h)
exec target/stack $stated
