#!/bin/bash
# Proves and builds the library for C and calls each function under several floating-point environments, from the
# repository root:
#   bash tests/environment.sh
# What each function is held to is read from the header: "Environment: default" or "Environment: any" in the comment
# above it.
set -eu
bash tests/library.sh
library=target/staticlib/libexports.a
# Threads: there is no data that calls could share, and no function of others but memcpy and memset.
if [ "$(size $library | awk 'NR > 1 { data += $2 + $3 } END { print data + 0 }')" != 0 ] ||
    [ "$(nm -u $library | awk '$1 == "U" { print $2 }' | sort | xargs)" != "memcpy memset" ]; then
    echo "FAILED: the library has data that can be written, or calls others than memcpy and memset"
    exit 1
fi
sources="tests/environment.c tests/cases.c tests/reference.c"
cc -O2 -std=c99 -Wall -Wextra -pedantic -Iinclude $sources $library -lm -o target/environment
stated=$(awk 'match($0, /Environment: [a-z]+/) { word = substr($0, RSTART + 13, RLENGTH - 13) }
    match($0, /gidzkhalu_[a-z_]+\(/) { print substr($0, RSTART + 10, RLENGTH - 11) "=" word; word = "" }' \
    include/gidzkhalu.h)
exec target/environment $stated
