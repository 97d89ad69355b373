#!/usr/bin/env bash
# Functions for test scripts. A script sources this file with the program as the argument, and ends with `finish`, whose last line is
# 'N passed, M failed'. It runs in a directory of its own, which is removed at the end.
set -u
tests=$(cd "$(dirname "${BASH_SOURCE[0]}")/.." && pwd)
top=$(dirname "$tests")
program=$(realpath "${1:-$top/cdpatch}")
vectors=$top/crates/cd_low_tests/data/cdrkit-8.bin
. "$tests/lib/judging.sh"
cd "$scratch" || exit 1

# holds COMMAND..: whether a command succeeds; prints the end of its output if not. refuses COMMAND..: whether a command fails.
holds() { { "$@" > log; } 2>> log || { tail -n 5 log; false; }; }
refuses() { ! { "$@" > log; } 2> errors; }

# by_cases WORD..: runs the worked cases on clients, which these words name (tests/cases/clients.py). by_random WORD..: runs random cases on
# one client: RANDOM_CASES of them, by default 100, or 300 in the gate (GATE=1), from the seed SEED.
random_cases=${RANDOM_CASES:-${GATE:+300}}
random_cases=${random_cases:-100}
by_cases() { python3 -B "$tests/cases/judge.py" model --without-model "$@"; }
by_random() { TMPDIR=$PWD python3 -B "$tests/model/compare.py" --cases "$random_cases" --seed "${SEED:-1}" "$@"; }

# compiled NAME PURPOSE: compiles tests/process/NAME.c to NAME.so. If there is no compiler, records that PURPOSE is skipped, and fails.
compiled() {
    gcc -shared -fPIC -O2 -o "$1.so" "$tests/process/$1.c" -ldl 2> compiler_errors ||
        skip "$2, which needs gcc and the C library's headers (Debian's packages gcc and libc6-dev)"
    [ -e "$1.so" ]
}

# run WORD..: runs the program with these arguments. Its output is in `log` and `errors`, its status in `status`.
run() {
    "$program" "$@" > log 2> errors < /dev/null
    status=$?
}

# ended STATUS TEXT: whether the last run had this status, printed exactly this text, nothing on standard error, and did not change the image
# or the script.
ended() {
    printf '%b' "$2" > wanted
    [ "$status" = "$1" ] && cmp -s wanted log && [ ! -s errors ] && cmp -s image image.kept && cmp -s script script.kept
}

# ended_without_output STATUS TEXT: the same, and that there is no file `out`.
ended_without_output() {
    ended "$1" "$2" && [ ! -e out ] && [ ! -L out ]
}

# keep: copies `image` and `script`, with which `ended` compares them.
keep() {
    cp image image.kept
    cp script script.kept
}

# cut_vectors: writes the eight sectors that other software encoded to `sector.0` to `sector.7`.
cut_vectors() {
    split -b 2352 -a 1 -d "$vectors" sector.
}

# joined NUMBER..: prints these sectors, concatenated.
joined() {
    cat "${@/#/sector.}"
}

# hex: prints the bytes of the standard input as hex digits.
hex() {
    od -An -v -tx1 | tr -d ' \n'
}

# within FILE WHOLE: whether FILE is a prefix of WHOLE.
within() {
    cmp -s -n "$(stat -c %s "$1")" "$1" "$2"
}

# ---- a large image: three buffers of 28 sectors, and a tail

# Its sectors are repetitions of the eight that other software encoded, and ten blank ones. Its patches give each sector that is not blank the
# address and the user data of a different one of the eight, so the right bytes are known without the program.
blocks=84
blank_from=40
blank_to=49

# old_at BLOCK, new_at BLOCK: which of the eight sectors a block has before and after the patches, or `blank`.
old_at() { if is_blank "$1"; then echo blank; else echo $(($1 % 8)); fi; }
new_at() { if is_blank "$1"; then echo blank; else echo $(((5 * $1 + 3) % 8)); fi; }
is_blank() { (($1 >= blank_from && $1 <= blank_to)); }

# list_text TAIL: prints the list of the large image, with a tail of TAIL bytes.
list_text() {
    printf '0-39 mode1\n40-49 nosync\n50-83 mode1\nsectors 84 tail %d\n' "$1"
}

# audit_text TAIL: prints its audit. The sectors have the addresses of the blocks 0 to 7.
audit_text() {
    local block
    for ((block = 8; block < blocks; block++)); do
        is_blank $block || echo "$block address"
    done
    printf 'sectors 84 mode1 74 damaged 0 tail %d\n' "$1"
}

# Prints two patches for each block that is not blank, from the last block down, so that they are applied in a different order.
large_script() {
    local block new
    echo 'cdpatch 2'
    for ((block = blocks - 1; block >= 0; block--)); do
        is_blank $block && continue
        new=$(new_at $block)
        echo "address $block 00:02:0$new"
        echo "set $block 0 ${user[new]}"
    done
}

# Prints the log of these patches.
large_log() {
    local block line=$((2 * 74))
    for ((block = 0; block < blocks; block++)); do
        is_blank $block && continue
        printf 'line %d: applied\nline %d: applied\n' $line $((line + 1))
        line=$((line - 2))
    done
    echo 'applied 148 refused 0'
}

# Writes the sectors of the large image, its script `large.script`, and its log `large.log`.
prepare_large() {
    local number block
    cut_vectors
    head -c 2352 /dev/zero > sector.blank
    head -c 2351 /dev/zero | tr '\0' 'A' > sector.tail
    user=()
    for number in 0 1 2 3 4 5 6 7; do
        user+=("$(tail -c +17 sector.$number | head -c 2048 | hex)")
    done
    old=()
    new=()
    for ((block = 0; block < blocks; block++)); do
        old+=("$(old_at $block)")
        new+=("$(new_at $block)")
    done
    large_script > large.script
    large_log > large.log
}

# make_large TAIL: writes `image`, `patched`, `list.log`, and `audit.log` for the large image with a tail of TAIL bytes.
make_large() {
    head -c "$1" sector.tail > sector.end
    joined "${old[@]}" end > image
    joined "${new[@]}" end > patched
    list_text "$1" > list.log
    audit_text "$1" > audit.log
}
