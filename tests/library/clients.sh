# Tests the two programs that are printed in cdpatch.h, the second on files that fail, and the examples when memory is refused.
# tests/library/run and examples.sh define the other functions.

# printed_program HEADER: prints the simplest program, with which the header begins.
printed_program() { sed -n '/patches an image in memory:$/,/^ \* A program that reads/s/^ \* \{5\}//p' "$1"; }

# simplest_as_program IMAGE SCRIPT: whether that program makes the image and has the status of `cdpatch apply`, or makes none if the status
# is not 0.
simplest_as_program() {
    local status=0 wanted=0
    ./simplest_program < "$1" > out || status=$?
    rm -f wanted.out
    "$program" apply "$1" "$2" wanted.out > log || wanted=$?
    [ "$wanted" = 0 ] || : > wanted.out
    cmp -s out wanted.out && [ "$status" = "$wanted" ]
}

test_printed_program() {
    printed_program "$header" > simplest.c
    printf 'cdpatch 1\nset 16 40 434452544F4F4C\n' > simplest
    judge 'the simplest program that the header prints compiles as it stands there' \
        gcc -std=c99 -O2 "${strict[@]}" simplest.c library/libcdpatch.a -o simplest_program
    { cat "$vectors" "$vectors" "$vectors"; printf 'tail'; } > larger
    judge 'it makes what cdpatch does' simplest_as_program larger simplest
    judge 'it makes none of an empty image' simplest_as_program /dev/null simplest
}

# printed_audit HEADER: prints the function that audits an image in memory.
printed_audit() { sed -n '/audit` does, and returns its status:$/,/^ \* @{ \*\/$/s/^ \* \{5\}//p' "$1"; }

# audits_as_program IMAGE: whether that function has the output and the status of `cdpatch audit`.
audits_as_program() {
    local status=0 wanted=0
    ./printed_audit < "$1" > log || status=$?
    "$program" audit "$1" > wanted || wanted=$?
    cmp -s log wanted && [ "$status" = "$wanted" ]
}

test_printed_audit() {
    { printf '#include <cdpatch.h>\n#include <stdio.h>\n' && printed_audit "$header" && printf '%s\n' 'static uint8_t image[1 << 20];' 'int main(void) {' \
        '    return print_audit(image, fread(image, 1, sizeof image, stdin), 0);' '}'; } > printed_audit.c
    judge 'the audit that the header prints compiles as it stands there' \
        gcc -std=c99 -O2 "${strict[@]}" printed_audit.c library/libcdpatch.a -o printed_audit
    judge 'it prints what cdpatch does' audits_as_program damaged
    judge 'of an image with a tail too' audits_as_program long
}

# printed_client HEADER: prints the complete client that the header contains.
printed_client() { sed -n '/whole client:$/,/^ \* The new image, the log/s/^ \* \{5\}//p' "$1"; }

# compiled_client: compiles header_client with client.inc.
compiled_client() { gcc -std=c99 -O2 "${strict[@]}" -I . "$tests/library/header_client.c" library/libcdpatch.a -o header_client 2> errors; }

client_as_program() { client=./header_client piped_as_program "$@"; }
client_reads_a_directory() { ./header_client script < .; }
client_of_another_base() { ./header_client other_base < damaged; }
client_writes_to_full() { ./header_client script < damaged > /dev/full; }
client_logs_to_full() { ./header_client script < damaged 2> /dev/full; }

# client_fills_a_disk: runs the client with room for 204,800 of 1,387,680 bytes.
client_fills_a_disk() {
    head -c 1387680 /dev/zero > blank
    (trap '' XFSZ && ulimit -f 200 && ./header_client none < blank)
}

test_printed_client() {
    test_printed_program
    test_printed_audit
    printed_client "$header" > client.inc
    judge 'the client that the header prints compiles as it stands there' compiled_client
    judge 'it has status 2 at each byte at which a file of it fails' holds ./header_client
    judge 'it makes and prints what the program does' client_as_program damaged script
    judge 'of an image with a tail too' client_as_program long script
    judge 'of an empty image too' client_as_program /dev/null script
    judge 'of a script with an error too' client_as_program damaged invalid
    judge 'it refuses a script for another base' ends_with 2 client_of_another_base
    judge 'it fails on a failed read' ends_with 2 client_reads_a_directory
    judge 'it fails on a full standard output' ends_with 2 client_writes_to_full
    judge 'it fails on a full standard error' ends_with 2 client_logs_to_full
    judge 'it fails on a full disk' ends_with 2 client_fills_a_disk
    if compiler g++ g++; then
        judge 'as C++20 it compiles without a warning' g++ -x c++ -std=c++20 "${strict[@]}" -I . -c "$tests/library/header_client.c" -o plus.o
    fi
}

# forgets CALL: writes `forgets.c`, a program that ignores the result of a call.
forgets() {
    printf '%s\n' '#include <cdpatch.h>' 'int main(void) {' 'static uint8_t bytes[9408];' 'size_t length;' "$1;" '(void)length;' 'return 0; }' \
        > forgets.c
}

# warns_of_it COMPILER..: whether a compiler warns about forgets.c.
warns_of_it() { ! "$@" -Wall -Wextra -Werror -I "$top/include" -c forgets.c -o forgets.o 2> errors && grep -q 'unused-result' errors; }

test_forgotten_results() {
    local call languages=(c99) language compiler
    ! command -v g++ > log || languages+=(c++98 c++20)
    for language in "${languages[@]}"; do
        compiler=(gcc "-std=$language")
        [ "$language" = c99 ] || compiler=(g++ -x c++ "-std=$language")
        for call in 'cdpatch_change_user(bytes, 2047, bytes + 2352, 2)' 'cdpatch_rebuild(bytes)' \
            'cdpatch_survey(bytes, 1, 0, (struct cdpatch_record *)bytes, 2)' \
            'cdpatch_index_script(bytes, 1, NULL, 0, (struct cdpatch_index *)bytes)' \
            'cdpatch_script_base(bytes, 1, 0, (struct cdpatch_named_base *)bytes)' \
            'cdpatch_apply_entries((struct cdpatch_job *)bytes, bytes, 1, NULL, 0, &length)'; do
            forgets "$call"
            judge "a compiler warns if nobody looks at what a call returns: $language: $call" warns_of_it "${compiler[@]}"
            judge 'and does not with -DCDPATCH_NODISCARD=' refuses warns_of_it "${compiler[@]}" -DCDPATCH_NODISCARD=
        done
        forgets 'cdpatch_edc(bytes, 1)'
        judge "no compiler warns of a call that cannot fail: $language" refuses warns_of_it "${compiler[@]}"
    done
}

# starts_in KILOBYTES PROGRAM: whether a program can start with this much memory.
starts_in() { (ulimit -v "$1" && "$2" > log 2>&1; [ $? = 2 ]) && grep -q 'usage: ' log; }

# survives STEP STEPS PROGRAM WORD..: runs a program with ever more memory, STEP kilobytes each time. Whether each run ends as with enough
# memory, or with status 2 and a line with the reason; and whether both occurred.
survives() {
    local step=$1 steps=$2 limit=2000 wanted=0 status refused=0
    shift 2
    "$@" < damaged > log 2> errors || wanted=$?
    until starts_in "$limit" "$1" || [ "$limit" -gt 20000 ]; do limit=$((limit + 100)); done
    for ((; steps > 0; steps--, limit += step)); do
        status=0
        { (ulimit -v "$limit" && exec "$@" < damaged > log 2> errors) || status=$?; } 2> log
        if [ "$status" = 2 ] && grep -q "^${1#./}: " errors; then
            refused=$((refused + 1))
        elif [ "$status" != "$wanted" ]; then
            return 1
        fi
    done
    [ "$refused" != 0 ] && [ "$status" = "$wanted" ]
}

test_refused_memory() {
    { echo 'cdpatch 1' && head -c 40000000 /dev/zero | tr '\0' '#'; } > wide
    truncate -s 6000000 sparse
    judge 'examples/patch_pipe.c says so if there is no memory for its script' survives 3000 40 ./patch_pipe wide
    judge 'examples/audit.c says so if there is none for the image' survives 40 180 ./audit sparse
    judge 'examples/patch_map.c says so if there is none for a map' survives 3000 40 ./patch_map --without-old wide sparse
}
