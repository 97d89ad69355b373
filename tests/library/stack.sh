# Compares the stack that each call and the program need with the man pages. tests/library/run defines the other functions.

# stated_stacks: prints the bytes of stack that libcdpatch(3) states for each call; `each` is every call that it does not list.
stated_stacks() {
    sed -n '/^\.Sh STACK/,/^\.El/p' "$top/man/libcdpatch.3" |
        awk '$1 == ".It" { bytes = $2 } $1 == ".Fn" { sub(/^cdpatch_/, "", $2); print $2, bytes } $1 == "each" { print $1, bytes }'
}

# keeps_to_stacks LIBRARY: whether each call needs at most the stack that the page states, measured by bench.c.
keeps_to_stacks() {
    LD_LIBRARY_PATH=${1%/*} ./bench stack > stacks && [ -s stacks ] || return
    awk 'FILENAME == "stated" { stated[$1] = $2; next }
        { most = $1 in stated ? stated[$1] : stated["each"]; if (!most || $2 > most) { print $1, $2, "of", most; lost = 1 } }
        END { exit lost }' stated stacks > log
}

# is_close: whether no row of the page states more than 5/4 of the most stack that one of its calls needed in a build.
is_close() {
    awk 'FILENAME == "stated" { stated[$1] = $2; next }
        { row = $1 in stated ? stated[$1] : stated["each"]; if ($2 > most[row]) most[row] = $2 }
        END { for (call in stated) if (stated[call] * 4 > most[stated[call]] * 5) { print call, most[stated[call]]; lost = 1 }; exit lost }' \
        stated all_stacks > log
}

test_stack_of_calls() {
    local build
    stated_stacks > stated
    : > all_stacks
    for build in "${builds[@]}"; do
        gcc -O2 "${strict[@]}" "$tests/library/bench.c" "$build" -o bench 2> errors
        judge "each call of $build takes the stack of libcdpatch(3) at most" holds keeps_to_stacks "$build"
        cat stacks >> all_stacks
    done
    [ ${#builds[@]} = 1 ] || judge 'libcdpatch(3) states not much more' holds is_close
}

# in_stack BYTES STATUS WORD..: whether the program with these arguments has this status with a stack of this size.
in_stack() {
    local bytes=$1 wanted=$2 status=0
    shift 2
    rm -f out
    { (ulimit -s $((bytes / 1024)) && exec env -i "$program" "$@") > log < /dev/null || status=$?; } 2> errors
    [ "$status" = "$wanted" ]
}

test_stack_of_program() {
    local stated command
    stated=$(sed -n 's/^The program needs at most \([0-9]*\) bytes of stack.*/\1/p' "$top/man/cdpatch.1")
    judge 'cdpatch(1) states the stack of the program' test -n "$stated"
    cp "$vectors" damaged
    printf '\001' | dd of=damaged bs=1 seek=$((2352 + 2351)) conv=notrunc status=none
    printf '%s\n' 'cdpatch 2' 'set 7 0 41' 'set 1 2000 4142 was 0000' "fill 4 2047 2050 FF" 'address 4 00:00:01' 'rebuild 1' \
        'set 99 0 41' > script
    { echo 'cdpatch 1'; seq -f 'set %.0f 2047 41424344' 0 65534; } > large_script
    head -c "$(limit 'bytes of a script')" /dev/zero > long_script
    printf 'cdpatch 1\nset 0 0 4\n' > invalid
    for command in "1 audit damaged" "0 list damaged" "1 check damaged script" "1 apply damaged script out" "2 check damaged invalid" \
        "1 apply --carry damaged large_script out" "2 check damaged long_script" "2 apply damaged nothing out" "0 --help" "2 --nothing"; do
        # The command's arguments.
        # shellcheck disable=SC2086
        judge "cdpatch ${command#* } in that stack" in_stack "$stated" $command
    done
    judge 'a third of it is not enough' refuses in_stack $((stated / 3)) 1 apply damaged script out
}

test_stack() {
    if compiler gcc 'gcc and libc6-dev'; then
        test_stack_of_calls
    fi
    test_stack_of_program
}
