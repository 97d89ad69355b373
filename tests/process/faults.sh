#!/usr/bin/env bash
# Makes each system call fail in turn, or do less than requested.
#
# A failed call must not be repeated, and nothing may be written after a failed write. The written bytes must be a prefix of the right ones,
# and the status must be 2.
set -u
. "$(dirname "$0")/../lib/helpers.sh"

here=$(pwd -P)
image=$here/image
script=$here/large.script
out=$here/out
buffer=65856
# Each patch is in one block, so at most one sector is in hand.
in_hand=1
prepare_large
make_large 2351

# struck CALLS FILE FAULT WORD..: runs the program with these arguments, and injects FAULT, unless it is empty, into its calls on a file.
# These calls are in `trace`, one in a line. `$input` is the standard input.
struck() {
    local calls=$1 file=$2 fault=$3
    shift 3
    local inject=()
    [ -z "$fault" ] || inject=(-e "inject=$calls:$fault")
    rm -f out
    strace -qq -s 0 -o trace -P "$here/$file" -e "trace=$calls" "${inject[@]}" "$program" "$@" > log 2> errors < "$input"
    status=$?
}

# The number of bytes moved by the calls before the failed one.
moved_before() {
    awk -v at="$at" 'NR < at { sum += $NF } END { print sum + 0 }' trace
}

# each CALLS FILE FAULTS CHECK WORD..: runs the program with these arguments once for each such call on the file. In each run a different
# call has a fault, and CHECK judges the result.
each() {
    local calls=$1 file=$2 faults=$3 check=$4 name="${*:5}" count fault
    shift 4
    name=${name//$here\//}
    struck "$calls" "$file" '' "$@"
    count=$(wc -l < trace)
    judge "$name: there are calls of $calls on $file" test "$count" -gt 0
    for ((at = 1; at <= count; at++)); do
        for fault in $faults; do
            struck "$calls" "$file" "$fault:when=$at" "$@"
            judge "$name: $fault at $calls $at of $count on $file" "$check" "$fault" "$@"
        done
    done
}

# Whether the run had status 2 and printed nothing on standard error, and the failed call was the last one on its file.
ended_at_fault() {
    [ "$status" = 2 ] && [ ! -s errors ] && [ "$(wc -l < trace)" = "$at" ]
}

# says LINE: whether the last line of the log is this one. Writes the lines before it to `before`.
says() {
    head -n -1 log > before
    [ "$(tail -n 1 log)" = "$1" ]
}

# lines_of_blocks COUNT: prints the number of log lines for the patches on the first blocks.
lines_of_blocks() {
    if (($1 <= 0)); then
        echo 0
    elif (($1 <= blank_from)); then
        echo $((2 * $1))
    elif (($1 <= blank_to)); then
        echo $((2 * blank_from))
    else
        echo $((2 * ($1 - 10)))
    fi
}

# logged NUMBER: whether the log before the last line is a prefix of the right log, and has at least the lines of this many blocks.
logged() {
    within before "$right_log" && [ "$(wc -l < before)" -ge "$(lines_of_blocks "$1")" ]
}

# sent LEAST: whether the output is a prefix of the right one, and has at least this many bytes.
sent() {
    within out "$right_out" && [ "$(stat -c %s out)" -ge "$1" ]
}

right_log=large.log
right_out=patched

# ---- the image

# A failed read of the image: everything known by then has been printed.
image_failed() {
    local moved sectors
    moved=$(moved_before)
    sectors=$((moved / 2352))
    ended_at_fault && says "$read_failed" || return
    case $2 in
        list) head -n -1 list.log | awk -F '[- ]' -v n=$sectors '$2 < n - 1' | cmp -s - before ;;
        audit) head -n -1 audit.log | awk -v n=$sectors '$1 < n' | cmp -s - before ;;
        check) logged $((sectors - in_hand)) ;;
        apply) logged $((sectors - in_hand)) && sent $((2352 * (sectors - in_hand))) ;;
    esac
}

# A read of no bytes ends the image: the result is that for an image that ends there.
image_cut() {
    local struck_status=$status
    head -c "$(moved_before)" image > cut_image
    [ "$2" != apply ] || mv out out.struck
    mv log log.struck
    run "$2" cut_image "${@:4}"
    cmp -s log log.struck && [ "$status" = "$struck_status" ] && [ ! -s errors ] || return
    [ "$2" != apply ] || cmp -s out out.struck
}

# An image that could not be opened.
image_refused() {
    ended_at_fault && [ ! -e out ] && [ "$(cat log)" = "$no_image" ]
}

# ---- the script

# A read of no bytes ends the script too, although the next read would return more.
script_cut() {
    local struck_status=$status
    head -c "$(moved_before)" large.script > cut_script
    mv log log.struck
    run "$2" image cut_script
    cmp -s log log.struck && [ "$status" = "$struck_status" ] && [ ! -s errors ]
}

script_failed() {
    ended_at_fault && [ ! -e out ] && [ "$(cat log)" = "$no_script" ]
}

# ---- the output

out_failed() {
    local moved
    moved=$(moved_before)
    ended_at_fault && says "$write_failed" || return
    logged $((moved / 2352)) && sent "$moved" && [ "$(stat -c %s out)" = "$moved" ]
}

# A failed sync: everything was written and printed.
sync_failed() {
    ended_at_fault && says "$write_failed" && cmp -s before "$right_log" && cmp -s out "$right_out"
}

out_refused() {
    ended_at_fault && [ ! -e out ] && [ "$(cat log)" = "$no_output" ]
}

# ---- standard output

# A failed write of the log: the bytes sent to the output by then are written, at least this many.
sent_by_then=0
log_failed() {
    ended_at_fault && within log "$right_log" && [ "$(stat -c %s log)" = "$(moved_before)" ] || return
    [ "$2" != apply ] || sent "$sent_by_then"
}

# ---- short counts

# without FILE FROM COUNT: prints a file without these bytes.
without() {
    head -c "$2" "$1"
    tail -c +$(($2 + $3 + 1)) "$1"
}

# A write that reports fewer bytes than it was given: the program must write the rest. The injected call writes none, so exactly these bytes
# are missing in the file.
taken_in_part() {
    local count=${1#retval=} file=$2 right=$3 moved
    moved=$(moved_before)
    [ "$status" = "$right_status" ] && [ ! -s errors ] && without "$right" "$moved" "$count" | cmp -s - "$file"
}
out_taken_in_part() { taken_in_part "$1" out "$right_out" && cmp -s log "$right_log"; }
log_taken_in_part() { taken_in_part "$1" log "$right_log"; }

# ---- a fault that changes nothing

as_ever() {
    [ "$status" = "$right_status" ] && cmp -s log "$right_log" && [ ! -s errors ] || return
    [ "$2" != apply ] || cmp -s out "$right_out"
}

# syncs FILE: prints the number of syncs in a trace.
syncs() {
    grep -c '^f\(data\)\?sync(' "$1"
}

errors='error=EIO error=ENOSPC error=EINTR'

commands_fail() {
    input=/dev/null
    for command in list audit; do
        each read image "$errors" image_failed $command "$image"
        each read image retval=0 image_cut $command "$image"
        each openat image "error=EIO error=EACCES" image_refused $command "$image"
        input=image
        each read image "$errors" image_failed $command -
        input=/dev/null
    done
    each read image "$errors" image_failed check "$image" "$script"
    each read image retval=0 image_cut check "$image" "$script"
    each read large.script retval=0 script_cut check "$image" "$script"
    each read image "$errors" image_failed apply "$image" "$script" "$out"
    each read image retval=0 image_cut apply "$image" "$script" "$out"
    for command in check apply; do
        local place=()
        [ $command = check ] || place=("$out")
        each openat image "error=EIO error=EACCES" image_refused $command "$image" "$script" "${place[@]}"
        each read large.script "$errors" script_failed $command "$image" "$script" "${place[@]}"
        each openat large.script "error=EIO error=EACCES" script_failed $command "$image" "$script" "${place[@]}"
    done
    input=image
    each read image "$errors" image_failed check - "$script"
    each read image "$errors" image_failed apply - "$script" "$out"
    input=/dev/null
}

outputs_fail() {
    right_status=0
    each openat out "error=EIO error=ENOSPC error=EROFS" out_refused apply "$image" "$script" "$out"
    each write out "$errors retval=0" out_failed apply "$image" "$script" "$out"
    each write out 'retval=1 retval=2351' out_taken_in_part apply "$image" "$script" "$out"
    # This log is written after the output is finished.
    sent_by_then=$(stat -c %s patched)
    each write log "$errors retval=0" log_failed apply "$image" "$script" "$out"
    each write log 'retval=1 retval=100' log_taken_in_part apply "$image" "$script" "$out"
    each close out "$errors" as_ever apply "$image" "$script" "$out"
    each close image "$errors" as_ever apply "$image" "$script" "$out"
    each close large.script "$errors" as_ever apply "$image" "$script" "$out"
}

# With status 0 the data are on the disk: the last call on the output before it is closed is a sync. Standard output is never synced.
syncs_come_last() {
    struck write,fsync,fdatasync,close out '' apply "$image" "$script" "$out"
    judge 'the output is synced once' test "$(syncs trace)" = 1
    judge 'the sync comes last' test "$(grep -v '^close(' trace | tail -n 1 | grep -c sync)" = 1
    judge 'a write for each buffer' test "$(grep -c '^write(' trace)" -le 4
    each fsync,fdatasync out 'error=EIO error=ENOSPC error=EDQUOT' sync_failed apply "$image" "$script" "$out"
    # std repeats an interrupted sync.
    each fsync,fdatasync out error=EINTR as_ever apply "$image" "$script" "$out"
    for command in list audit check apply; do
        case $command in
            list | audit) struck write,fsync,fdatasync log '' $command "$image" ;;
            check) struck write,fsync,fdatasync log '' check "$image" "$script" ;;
            apply) struck write,fsync,fdatasync log '' apply "$image" "$script" "$out" ;;
        esac
        judge "$command: standard output is not synced" test "$(syncs trace)" = 0
        judge "$command: standard output is written once" test "$(grep -c '^write(' trace)" = 1
    done
}

# Texts of several buffers. The image alternates noise and blank sectors; the script rebuilds one sector repeatedly.
long_texts_fail() {
    {
        head -c 12 sector.0
        printf '\0\2\0\1'
        tail -c +100 "$vectors" | head -c 2336
        cat sector.blank
    } > pairs
    local doubling rebuilt
    for ((doubling = 0; doubling < 12; doubling++)); do
        cat pairs pairs > doubled
        mv doubled pairs
    done
    cp image image.large
    mv pairs image
    right_log=long.log
    for command in list audit; do
        struck write log '' $command "$image"
        right_status=$status
        cp log long.log
        judge "$command: the text has several buffers" test "$(stat -c %s log)" -gt 131712
        judge "$command: a write for each buffer" test "$(wc -l < trace)" -le $(($(stat -c %s log) / buffer + 1))
        each write log "$errors retval=0" log_failed $command "$image"
        each write log 'retval=1 retval=2351' log_taken_in_part $command "$image"
    done
    mv image.large image
    { echo 'cdpatch 1'; yes 'rebuild 3' | head -n 9000; } > long.script
    for ((rebuilt = 2; rebuilt < 9002; rebuilt++)); do
        echo "line $rebuilt: applied"
    done > long.log
    echo 'applied 9000 refused 0' >> long.log
    right_status=0
    right_out=image
    sent_by_then=$((3 * 2352))
    each write log "$errors retval=0" log_failed check "$image" "$here/long.script"
    each write log 'retval=1 retval=2351' log_taken_in_part check "$image" "$here/long.script"
    each write log "$errors retval=0" log_failed apply "$image" "$here/long.script" "$out"
    each write log 'retval=1 retval=2351' log_taken_in_part apply "$image" "$here/long.script" "$out"
    right_log=large.log
    right_out=patched
}

# On a terminal each line is written separately, and a failed write is the last.
terminals_fail() {
    local number lines=9
    for ((number = 0; number < lines - 1; number++)); do
        head -c 2351 "sector.$number"
        printf '\377'
    done > damaged
    for ((number = 0; number < lines - 1; number++)); do
        echo "$number q=1"
    done > right
    echo "sectors 8 mode1 8 damaged 8 tail 0" >> right
    on_terminal() {
        python3 "$tests/process/terminal.py" damaged 0 first end strace -qq -s 0 -o trace -e trace=write "$@" "$program" audit - > log
    }
    on_terminal
    judge 'audit on a terminal: the text' cmp -s log right
    judge 'audit on a terminal: its status' test "$(cat end)" = 1
    judge 'audit on a terminal: a write for each line' test "$(wc -l < trace)" = $lines
    for ((number = 1; number <= lines; number++)); do
        for fault in $errors; do
            on_terminal -e "inject=write:$fault:when=$number"
            head -n $((number - 1)) right > wanted
            judge "audit on a terminal: $fault at write $number: the lines before it" cmp -s log wanted
            judge "audit on a terminal: $fault at write $number: none after it" test "$(wc -l < trace)" = $number
            judge "audit on a terminal: $fault at write $number: the status" test "$(cat end)" = 2
        done
    done
}

if ! missing strace strace 'faults of the system'; then
    if strace -qq -o trace -e inject=read:error=EIO:when=1 true 2> /dev/null; [ -s trace ]; then
        commands_fail
        outputs_fail
        syncs_come_last
        long_texts_fail
        terminals_fail
    else
        skip 'faults of the system, which want a strace that may trace'
    fi
fi

# ---- few bytes a call

# few NUMBER WORD..: runs the program with these arguments, with reads and writes that move at most this many bytes.
few() {
    rm -f out
    SHORT_READS=$1 SHORT_WRITES=$1 LD_PRELOAD=$here/short.so "$program" "${@:2}" > log 2> errors < /dev/null
    status=$?
}

if compiled short 'few bytes a call'; then
    SHORT_READS=0 LD_PRELOAD=$here/short.so "$program" list image > log
    judge 'a read of no bytes is the end' test "$(cat log)" = 'sectors 0 tail 0'
    SHORT_WRITES=0 LD_PRELOAD=$here/short.so "$program" list image > log
    judge 'a write of no bytes is a fault' test $? = 2 -a ! -s log
    for number in 1 7 2351 2352 2353 65535 65536; do
        right_status=0
        right_log=list.log
        few $number list image
        judge "list, $number bytes a call" as_ever '' list
        right_log=large.log
        few $number check image large.script
        judge "check, $number bytes a call" as_ever '' check
        few $number apply image large.script out
        judge "apply, $number bytes a call" as_ever '' apply
        right_status=1
        right_log=audit.log
        few $number audit image
        judge "audit, $number bytes a call" as_ever '' audit
    done
fi

finish
