#!/bin/bash
# Proves and builds the library for C and counts the instructions of the longest call of each function, from the
# repository root, by callgrind (valgrind):
#   bash tests/longest.sh
# The figures that it is held to are read from the header: "Instructions: N" in the comment above each function.
set -eu
bash tests/library.sh
out=target/longest.out
rm -rf $out
mkdir -p $out
cc -O2 -std=c99 -Wall -Wextra -pedantic -Iinclude tests/longest.c target/staticlib/libexports.a -Wl,-z,now \
    -o target/longest

# Prints, for each call of a function, the instructions from its first to its return, without those of memset and memcpy, and
# what the program says of the call. A call begins from 0 and ends in a dump of its own, and these two stop the count meanwhile.
counts() { # FUNCTION
    valgrind --tool=callgrind --callgrind-out-file=$out/"$1" --toggle-collect="$1" --toggle-collect=memset --toggle-collect=memcpy \
        --zero-before="$1" --dump-after="$1" target/longest "$1" >$out/"$1".calls 2>$out/"$1".log ||
        { tail -n 3 $out/"$1".log >&2; exit 1; }
    local k=0 call
    while read -r call; do
        k=$((k + 1))
        echo "$(sed -n 's/^summary: //p' $out/"$1".$k) $call"
    done <$out/"$1".calls
    if [ ! -e $out/"$1".$k ] || [ -e $out/"$1".$((k + 1)) ]; then
        echo "FAILED: not one dump for each call of $1" >&2
        exit 1
    fi
}

if [ "$(counts counted)" != "4 a known count" ]; then
    echo "FAILED: a known count is not counted as it is: $(counts counted)"
    exit 1
fi
awk 'match($0, /Instructions: [0-9]+/) { figure = substr($0, RSTART + 14, RLENGTH - 14) }
    match($0, /gidzkhalu_[a-z_]+\(/) { print substr($0, RSTART, RLENGTH - 1), figure + 0; figure = "" }' \
    include/gidzkhalu.h >$out/stated
above=0
printf '%-16s %12s %12s  %s\n' function instructions stated 'longest call: its answer and input'
while read -r function stated; do
    counts "$function" >$out/counts
    read -r most call < <(sort -rns $out/counts)
    printf '%-16s %12d %12d  %s\n' "${function#gidzkhalu_}" "$most" "$stated" "$call"
    if [ "$most" -gt "$stated" ]; then
        echo "ABOVE: ${function#gidzkhalu_} takes $most instructions, $stated are stated"
        above=$((above + 1))
    fi
done <$out/stated
if [ $above -gt 0 ]; then
    echo "$above figures are above what is stated"
    exit 1
fi
echo "no figure is above what is stated"
