# Tests the examples on images for which the program gives the right results. tests/library/run defines the other functions.

# audit_as_program IMAGE: whether examples/audit.c has the output and the status of `cdpatch audit`.
audit_as_program() {
    local status=0 wanted=0
    ./audit "$1" > log || status=$?
    "$program" audit "$1" > wanted || wanted=$?
    cmp -s log wanted && [ "$status" = "$wanted" ]
}

# ends_with STATUS COMMAND..: whether a command has this status.
ends_with() {
    local wanted=$1 status=0
    shift
    "$@" > log 2> errors || status=$?
    [ "$status" = "$wanted" ]
}

audits_a_pipe() { ./audit <(cat "$1"); }
audits_to_full() { ./audit "$1" > /dev/full; }

test_audit_example() {
    gcc -std=c99 -O2 "${strict[@]}" "$top/examples/audit.c" library/libcdpatch.a -o audit 2> errors
    judge 'examples/audit.c has no finding in a sound image' audit_as_program "$vectors"
    judge 'it has findings in a damaged one' audit_as_program damaged
    : > empty
    judge 'it audits an empty file' audit_as_program empty
    printf 'tail' > only_tail
    judge 'it audits a tail' audit_as_program only_tail
    judge 'it fails on a full standard output' ends_with 2 audits_to_full damaged
    judge 'it fails without a file' ends_with 2 ./audit
    judge 'it fails on a file that is not there' ends_with 2 ./audit nothing
    judge 'it fails on a directory' ends_with 2 ./audit .
    judge 'it fails on a pipe' ends_with 2 audits_a_pipe damaged
    judge 'it fails on a device' ends_with 2 ./audit /dev/zero
}

# piped_as_program IMAGE SCRIPT: whether examples/patch_pipe.c, or a different `client`, has the result, the output, and the status of
# `cdpatch apply` when the image comes through a pipe.
piped_as_program() {
    local status wanted=0
    "${client:-./patch_pipe}" "$2" < <(cat "$1") 2> log | cat > out
    status=${PIPESTATUS[0]}
    rm -f wanted.out
    "$program" apply "$1" "$2" wanted.out > wanted || wanted=$?
    [ -e wanted.out ] || : > wanted.out
    cmp -s log wanted && cmp -s out wanted.out && [ "$status" = "$wanted" ]
}

pipes_to_full() { ./patch_pipe script < damaged > /dev/full; }

# pipes_in_memory KILOBYTES: patches an image of 24 megabytes with at most this much memory.
pipes_in_memory() {
    (ulimit -d "$1" && head -c 24000000 /dev/zero | ./patch_pipe script 2> log | cmp -s - <(head -c 24000000 /dev/zero)) &&
        [ "$(tail -n 1 log)" = 'applied 0 refused 7' ]
}

# log_of_a_long_image SCRIPT SECTORS: whether patch_pipe.c prints the program's log for a blank image that is one byte too long, and writes
# this many sectors.
log_of_a_long_image() {
    local written status
    truncate -s 2352000001 too_long
    "$program" check too_long "$1" > wanted
    written=$(./patch_pipe "$1" < too_long 2> log | wc -c; exit "${PIPESTATUS[0]}")
    status=$?
    cmp -s log wanted && [ "$written" = $(($2 * 2352)) ] && [ "$status" = 2 ]
}

# pipes_a_directory: reads a directory, which can be opened but not read.
pipes_a_directory() { ./patch_pipe script < .; }

log_of_a_long_script() {
    local status=0
    truncate -s $(($(limit 'bytes of a script') + 1)) too_long
    "$program" check "$vectors" too_long > wanted
    ./patch_pipe too_long < "$vectors" 2> log || status=$?
    cmp -s log wanted && [ "$status" = 2 ]
}

test_pipe_example() {
    gcc -std=c99 -O2 "${strict[@]}" "$top/examples/patch_pipe.c" library/libcdpatch.a -o patch_pipe 2> errors
    printf '%s\n' 'cdpatch 2' 'set 7 0 41' 'set 1 2000 4142 was 0000' "fill 4 2047 2050 FF" 'address 4 00:00:01' 'set 3 0 41' \
        'rebuild 1' 'set 99 0 41' > script
    judge 'examples/patch_pipe.c patches a pipe' piped_as_program damaged script
    cat damaged only_tail > long
    judge 'it passes on the tail' piped_as_program long script
    printf 'cdpatch 1\nset 3 0 41\nset 1 0 44\nset 3 0 42 was 41\nset 3 0 43 was 42\nset 1 0 45 was 44' > stable
    judge 'it keeps the order of the patches of a block' piped_as_program "$vectors" stable
    judge 'it patches an empty image' piped_as_program /dev/null stable
    printf 'cdpatch 1\n' > none
    judge 'it passes on an image without a patch' piped_as_program long none
    printf 'cdpatch 1\n\nset 0 0 4\n' > invalid
    judge 'it prints the error of a script' piped_as_program damaged invalid
    printf '# none\n' > headless
    judge 'it misses the head line' piped_as_program damaged headless
    : > empty
    judge 'in an empty script too' piped_as_program damaged empty
    judge 'it holds no image' pipes_in_memory 6000
    printf 'cdpatch 1\n# base 150\nset 150 0 41\n' > other_base
    judge 'it refuses a script for another base' ends_with 2 ./patch_pipe other_base
    judge 'which it says' grep -qx 'patch_pipe: line 2 of the script says base 150, but the image begins with block 0' errors
    judge 'it fails on a full standard output' ends_with 2 pipes_to_full
    judge 'it fails without a script' ends_with 2 ./patch_pipe nothing
    judge 'it fails on a directory' ends_with 2 pipes_a_directory
    printf '%s\n' 'cdpatch 1' 'set 999998 0 41' 'set 999999 0 41' 'set 999999 2047 4141' 'set 1000000 0 41' 'set 0 0 41' > late
    judge 'of an image that is too long it prints the patches before the end, and the error' log_of_a_long_image late 999999
    judge 'and so without a patch near the end' log_of_a_long_image none 1000000
    judge 'it refuses a script that is too long' log_of_a_long_script
    missing valgrind valgrind 'patch_pipe.c under valgrind' || judge 'valgrind has no complaint about it' eval \
        'valgrind -q --leak-check=full --error-exitcode=9 --log-file=complaints ./patch_pipe script < long > out 2> log; test $? = 1'
}

# later_library: builds later.a and later.so, a later libcdpatch (later.c).
later_library() {
    objcopy --redefine-sym cdpatch_read_line=right_read_line library/libcdpatch.a right.a
    gcc -O2 -fPIC "${strict[@]}" -Wno-array-parameter -c "$tests/library/later.c" 2> errors
    cp right.a later.a
    ar r later.a later.o 2> errors
    gcc -shared -Wl,--whole-archive later.a -Wl,--no-whole-archive -o later.so 2> errors
}

# Tests a client in Python that reads line by line with the later library.
takes_a_later_version_by_lines() {
    printf 'cdpatch 9\naddress 0 12:34:56\n' > later
    PYTHONPATH=$tests/library python3 -B -c 'import sys; from by_lines import run; image = open(sys.argv[1], "rb").read()
status, log, out = run("./later.so", "apply", image, 0, False, b"cdpatch 9\naddress 0 12:34:56\n")
sys.exit((status, log, out[12:15]) != (0, b"line 2: applied\napplied 1 refused 0\n", b"\x12\x34\x56"))' "$vectors"
}

# maps_as_program STATUS IMAGE WORD..: whether patch_map.c has this status, prints the log of `cdpatch apply`, and gives a copy of the image
# its result, or leaves the copy unchanged if that status is not 0.
maps_as_program() {
    local wanted=$1 image=$2 status=0
    shift 2
    cp "$image" mapped
    chmod u+w mapped
    rm -f wanted.out
    "$program" apply "$image" "${*: -1}" wanted.out > wanted || cp "$image" wanted.out
    ./patch_map "$@" mapped > log 2> errors || status=$?
    [ "$status" = "$wanted" ] && cmp -s mapped wanted.out && cmp -s log wanted
}

# keeps_the_file WORD..: whether patch_map.c has status 2, prints no log, and leaves a file unchanged.
keeps_the_file() {
    cp long mapped
    ends_with 2 ./patch_map "$@" && cmp -s long mapped && [ ! -s log ]
}

# log_of_a_long_map SCRIPT: whether patch_map.c prints the program's log for a blank image that is too long, and writes nothing.
log_of_a_long_map() {
    truncate -s 2352000001 too_long
    "$program" check too_long "$1" > wanted
    ends_with 2 ./patch_map --without-old "$1" too_long && cmp -s log wanted && [ "$(stat -c %b too_long)" = 0 ]
}

maps_to_full() { ./patch_map with_old mapped > /dev/full; }

test_map_example() {
    gcc -std=c99 -O2 "${strict[@]}" "$top/examples/patch_map.c" library/libcdpatch.a -o patch_map 2> errors
    printf 'cdpatch 1\nset 6 2047 4142 was F668\nset 2 0 41 was FE\nset 2 0 42 was 41' > with_old
    printf 'cdpatch 1\nset 2 0 41 was FE\nset 5 0 42 was 77\n' > differing
    printf 'cdpatch 2\nset 2 0 41 was FE\nfill 5 0 9 42\nrebuild 4\n' > filling
    printf 'cdpatch 1\nset 2 0 41 was FE\nset 1 0 41 was EB\n' > on_damage
    dd if=/dev/zero bs=2352 count=1 status=none | cat "$vectors" - only_tail > blank_end
    judge 'examples/patch_map.c patches a file in place' maps_as_program 0 "$vectors" with_old
    judge 'it leaves a tail as it is' maps_as_program 0 blank_end with_old
    judge 'it leaves all as it is if a patch is refused' maps_as_program 1 "$vectors" differing
    judge 'and if a sector is damaged' maps_as_program 1 damaged on_damage
    judge 'it refuses a line that names no old bytes' keeps_the_file filling mapped
    judge 'which it says' grep -qx 'patch_map: line 3 of the script names no old bytes' errors
    judge 'if told it takes such a line' maps_as_program 0 "$vectors" --without-old filling
    judge 'it prints the error of a script' maps_as_program 2 long invalid
    judge 'and that of one without a head line' maps_as_program 2 long headless
    judge 'it takes an empty image' maps_as_program 1 empty with_old
    judge 'and a script without a patch' maps_as_program 0 empty none
    judge 'it refuses a script for another base' keeps_the_file other_base mapped
    judge 'it fails without a script' keeps_the_file nothing mapped
    judge 'it fails on a pipe' keeps_the_file <(cat with_old) mapped
    judge 'it fails on other arguments' keeps_the_file --carry with_old mapped
    judge 'it fails without an image' ends_with 2 ./patch_map with_old nothing
    judge 'it fails on a full standard output' ends_with 2 maps_to_full
    judge 'and writes nothing then' cmp -s long mapped
    judge 'of an image that is too long it prints the patches before the end, and the error' log_of_a_long_map late
    missing valgrind valgrind 'patch_map.c under valgrind' || judge 'valgrind has no complaint about it' eval \
        'cp "$vectors" mapped; valgrind -q --error-exitcode=9 --log-file=complaints ./patch_map with_old mapped > log; test $? = 0'
    test_later_library
}

test_later_library() {
    missing objcopy binutils 'a later library' && return
    later_library
    judge 'a client by lines in Python reads a later version of the language' takes_a_later_version_by_lines
}

test_examples() {
    cp "$vectors" damaged
    printf '\001' | dd of=damaged bs=1 seek=$((2352 + 2351)) conv=notrunc status=none
    printf '\001' | dd of=damaged bs=1 seek=$((3 * 2352 + 13)) conv=notrunc status=none
    if compiler gcc 'gcc and libc6-dev'; then
        test_audit_example
        test_pipe_example
        test_map_example
        test_printed_client
        test_refused_memory
    fi
}
