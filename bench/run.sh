#!/usr/bin/env bash
# Measures the library beside C, from the repository's root:
#
#     bash bench/run.sh            checks, cells that (c) gets wrong, table of times, strip beside main path
#     bash bench/run.sh --count    instructions of library and (a), and of strip and main path, by callgrind
#     bash bench/run.sh --laws     what the search for a step count does, and the polygon for which it does most
#
# CC and CFLAGS choose the C compiler, LIB another archive than the one that is built here. BEFORE is an archive of
# another build with the same interface, but for functions that it may lack, which is measured beside it. ROWS are numbers
# of rows, for these alone.
set -eu
cd "$(dirname "$0")/.."
cc=${CC:-gcc}
flags=${CFLAGS:--O3}
lib=${LIB:-target/staticlib/libexports.a}
rows=${ROWS:-}
out=target/bench
places='0 1 2 3'
mkdir -p $out

# The functions of BEFORE, which are all its global names, under a prefix of their own.
rename() {
    nm -g --defined-only "$BEFORE" | sed -n 's/.* gidzkhalu_\(.*\)/gidzkhalu_\1 before_\1/p' >$out/names
    objcopy --redefine-syms=$out/names "$BEFORE" $out/before.a
}

build() {
    if [ -z "${LIB:-}" ]; then bash tests/library.sh >$out/staticlib.log 2>&1 || { tail -n 5 $out/staticlib.log; exit 1; }; fi
    # The library's header must declare what bench/box.h declares.
    $cc -std=c99 -fsyntax-only -include include/gidzkhalu.h -x c bench/box.h
    for name in same direct usual inputs agree bench; do
        # shellcheck disable=SC2086
        $cc -std=c99 -Wall -Wextra $flags ${BEFORE:+-DBEFORE} -c bench/$name.c -o $out/$name.o
    done
    if [ -n "${BEFORE:-}" ]; then rename; fi
    # The same code at four places, 16 bytes apart: where a loop lies in a line of the cache counts for some per cent.
    for p in $places; do
        printf '.text\n.skip %d, 0x90\n.section .note.GNU-stack,"",@progbits\n' $((16 * p + 16)) >$out/pad.s
        $cc -c $out/pad.s -o $out/pad.o
        $cc -o $out/bench.$p $out/pad.o $out/{bench,agree,inputs,same,direct,usual}.o ${BEFORE:+$out/before.a} "$lib" -lm
    done
}

describe() {
    echo "Compiler: $($cc --version | head -n 1); flags: -std=c99 $flags"
    echo "Processor: $(sed -n 's/^model name[^:]*: //p' /proc/cpuinfo | head -n 1)"
    echo "Toolchain of the library: $(rt version)"
}

# Seven rounds at each place in turn, three times over, and of strip and main path 160 shorter ones.
measure() {
    $out/bench.0 check
    : >$out/times
    : >$out/strip
    for _ in 1 2 3; do
        for p in $places; do
            # shellcheck disable=SC2086
            $out/bench.$p times "$p" 7 $rows >>$out/times
            # shellcheck disable=SC2086
            $out/bench.$p strip "$p" 160 $rows >>$out/strip
        done
    done
    echo
    $out/bench.0 table <$out/times
    echo
    $out/bench.0 strip_table <$out/strip
}

# Instructions that a box executes in the functions of a row, callees included.
collected() { # PREFIX BOX ROW FUNCTIONS
    local words=''
    for f in $4; do words="$words --toggle-collect=$1_$f"; done
    # shellcheck disable=SC2086
    valgrind --tool=callgrind --callgrind-out-file=/dev/null $words $out/bench.0 count "$3" "$2" 2>&1 >$out/units |
        sed -n 's/.*Collected : //p'
}

# The same of the strip and of the main path on the same input: boxes 5 and 6 are library and BEFORE with the one in the
# other's place.
count_strip() {
    # shellcheck disable=SC2086
    if [ -z "$($out/bench.0 strip_rows $rows)" ]; then return; fi
    echo
    echo "| instructions a call | strip | main path | more | ratio |${BEFORE:+ before | more | ratio |}"
    echo "|---|---|---|---|---|${BEFORE:+---|---|---|}"
    # shellcheck disable=SC2086
    $out/bench.0 strip_rows $rows | while IFS='|' read -r row name unit functions; do
        strip=$(collected gidzkhalu 0 "$row" "$functions")
        paths=$(collected gidzkhalu 5 "$row" "${functions/strip_/}")
        if [ -n "${BEFORE:-}" ]; then paths="$paths $(collected before 6 "$row" "${functions/strip_/}")"; fi
        awk -v name="$name" -v strip="$strip" -v paths="$paths" -v units="$(cat $out/units)" 'BEGIN {
            printf "| %s | %.1f |", name, strip / units
            n = split(paths, path, " ")
            for (k = 1; k <= n; k++)
                printf " %.1f | %.1f | %.4f |", path[k] / units, (strip - path[k]) / units, strip / path[k]
            printf "\n" }'
    done
}

count() {
    echo "| instructions | library | (a) | ratio |${BEFORE:+ before | ratio |}"
    echo "|---|---|---|---|${BEFORE:+---|---|}"
    # shellcheck disable=SC2086
    $out/bench.0 rows $rows | while IFS='|' read -r row name unit functions; do
        before=
        if [ -n "${BEFORE:-}" ]; then before=$(collected before 4 "$row" "$functions"); fi
        own=$(collected gidzkhalu 0 "$row" "$functions")
        same=$(collected same 1 "$row" "$functions")
        awk -v name="$name" -v unit="$unit" -v own="$own" -v others="$same $before" -v units="$(cat $out/units)" 'BEGIN {
            form = own / units < 1000 ? "%.1f" : "%.0f"
            printf "| %s | " form " a %s |", name, own / units, unit
            n = split(others, other, " ")
            for (k = 1; k <= n; k++)
                if (other[k] > 0)
                    printf " " form " | %.2f |", other[k] / units, own / other[k]
                else
                    printf " none | |"
            printf "\n" }'
    done
    count_strip
}

# Counts by a program of its own, without the library.
laws() {
    # shellcheck disable=SC2086
    $cc -std=c99 -Wall -Wextra $flags -o $out/laws bench/laws.c bench/inputs.c
    $out/laws table
    echo
    $out/laws slowest 100000000
}

case ${1:-} in
--laws) laws; exit ;;
--count) run=count ;;
'') run=measure ;;
*) echo "usage: bash bench/run.sh [--count | --laws]" >&2; exit 2 ;;
esac
build
describe
echo
$run
