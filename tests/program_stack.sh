#!/bin/bash
# Proves and builds the two sheet programs and finds the least stack with which each still prints what it prints with
# plenty, from the repository root:
#   bash tests/program_stack.sh
# Each runs 20 times on four sheets, with an empty environment, under a limit (`ulimit -s`) that falls by 4 KiB: the system
# places the stack anew each time. The figure that it is held to is read from README.md: "N KiB of stack".
set -eu
bash tests/program.sh stroke_sheet key_totals
stated=$(sed -n 's/.*[^0-9]\([0-9][0-9]*\) KiB of stack.*/\1/p' README.md | head -n 1)
out=target/program_stack
mkdir -p $out

# A curve line along x, from one side of the cube to the other.
row() { printf '%5d' "$1" 512 0 "$2" "$3" 13 "$2" "$3" 26 "$2" "$3" 39 "$2" "$3"; echo; }

cp examples/sample.sheet $out/sample
: >$out/empty
# 200 rows fill five planes of side 40: a listing of several writes.
printf '%5d\n' 40 >$out/rows
for ((line = 0; line < 200; line++)); do row $((line + 1)) $((line % 40)) $((line / 40)); done >>$out/rows
# The same and a byte more: refused at the last.
cp $out/rows $out/refused
echo >>$out/refused

# Whether a program prints what is expected on each sheet, with so many KiB.
right() { # PROGRAM KIB
    local sheet run
    for sheet in sample empty rows refused; do
        for ((run = 0; run < 20; run++)); do
            (ulimit -s "$2" && env -i target/bin/"$1" <$out/$sheet >$out/came 2>&1) 2>/dev/null || return 1
            cmp -s $out/came $out/"$1".$sheet || return 1
        done
    done
}

failed=0
for program in stroke_sheet key_totals; do
    for sheet in sample empty rows refused; do target/bin/$program <$out/$sheet >$out/$program.$sheet; done
    least=none
    for ((kib = stated; kib > 0; kib -= 4)); do
        right $program $kib || break
        least=$kib
    done 2>/dev/null
    echo "$program: right with $least KiB of stack, $stated are stated"
    if [ $least = none ]; then failed=1; fi
done
exit $failed
