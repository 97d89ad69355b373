#!/usr/bin/env bash
# Refuses memory, under a falling limit of address space, and for each allocation in turn.
#
# Each run must give the right answer, or one of the two lines about missing memory and status 2. The same run afterwards, with enough
# memory, must give the right answer.
set -u
. "$(dirname "$0")/../lib/helpers.sh"

prepare_large
make_large 2351
declare -A lines_told=()

# right_answer COMMAND: whether the last run gave the right answer.
right_answer() {
    [ "$status" = "$right_status" ] && cmp -s log "$right_log" && [ ! -s errors ] || return
    [ "$1" != apply ] || cmp -s out "$right_out"
}

# refused COMMAND: whether the last run printed only that it has no memory, and an output, if created, is empty. The line is recorded in
# `lines_told`. The line about the script may occur only if there is a script without a fault: a fault is printed in any case.
refused() {
    mapfile -t said < log
    [ "$status" = 2 ] && [ ${#said[@]} = 1 ] && [ ! -s errors ] && [ ! -s out ] || return
    lines_told[${said[0]}]=1
    case ${said[0]} in
        "$no_memory") ;;
        "$no_script_memory") [ "$right_status" != 2 ] && [[ $1 == check || $1 == apply ]] ;;
        *) false ;;
    esac
}

right_or_refused() {
    right_answer "$1" || refused "$1"
}

# limited KILOBYTES WORD..: runs the program with these arguments and this much address space.
limited() {
    rm -f out
    (
        ulimit -v "$1"
        exec "$program" "${@:2}"
    ) > log 2> errors < /dev/null
    status=$?
}

# Whether the program was not started: the loader had no memory, which it reports by this status.
not_begun() {
    [ "$status" = 127 ] && [ ! -s log ]
}

# falling WORD..: runs the program with these arguments under limits that fall from 100 MB until it cannot be started.
falling() {
    local limit=100000 name="$*" refusals=0
    while [ $limit -gt 1000 ]; do
        limited $limit "$@"
        not_begun && break
        judge "$name under $limit kB" right_or_refused "$1"
        cmp -s log "$right_log" || refusals=$((refusals + 1))
        if [ $limit -gt 6000 ]; then
            limit=$((limit * 4 / 5))
        else
            limit=$((limit - 150))
        fi
    done
    judge "$name finds no memory" test $refusals -gt 0
    rm -f out
    run "$@"
    judge "$name with memory again" right_answer "$1"
}

# refusing WORD..: runs the program with these arguments. The shim refuses its `number`th request for memory, and all later ones if
# `REFUSE_REST` is set.
refusing() {
    rm -f out refused
    local -x REFUSE=$number REFUSED=refused LD_PRELOAD=$scratch/refuse.so
    run "$@"
}

# in_turn WORD..: runs the program with these arguments once for each of its requests for memory. In each run a different one is refused;
# then that one and all later ones.
in_turn() {
    local number refusals name="$*" rest
    for rest in '' rest; do
        [ -z "$rest" ] || local -x REFUSE_REST=1
        refusals=0
        for ((number = 1; number < 1000; number++)); do
            refusing "$@"
            [ -e refused ] || break
            refusals=$((refusals + 1))
            judge "$name: memory refused at call $number $rest" refused "$1"
        done
        judge "$name: none is refused" right_answer "$1"
        judge "$name: some were refused" test $refusals -gt 0
        rm -f out
        run "$@"
        judge "$name: with memory again" right_answer "$1"
    done
}

# commands CHECK: tests each command with `falling` or `in_turn`.
commands() {
    right_status=0
    right_log=list.log
    "$1" list image
    right_status=1
    right_log=audit.log
    "$1" audit image
    right_status=0
    right_log=large.log
    right_out=patched
    "$1" check image large.script
    "$1" apply image large.script out
    right_status=2
    right_log=faulty.log
    "$1" check image faulty
}

{ cat large.script; echo 'set 0 0 4'; } > faulty
echo "script line 150: $bad_hex" > faulty.log
commands falling

# A large script: there is no memory for its text of blank lines, or for its patches.
{ echo 'cdpatch 1'; yes 'set 3 0 4142' | head -n 20000; } > many
for ((line = 2; line < 20002; line++)); do
    echo "line $line: applied"
done > many.log
echo 'applied 20000 refused 0' >> many.log
{ echo 'cdpatch 1'; yes '' | head -n 9000000; echo 'set 3 0 41'; } > blank_lines
printf 'line 9000002: applied\napplied 1 refused 0\n' > blank_lines.log
right_status=0
for script in many blank_lines; do
    right_log=$script.log
    falling check image $script
done
for line in "$no_memory" "$no_script_memory"; do
    judge "a limit gives the line $line" test -n "${lines_told[$line]-}"
done

lines_told=()
if compiled refuse 'each growth refused in turn'; then
    commands in_turn
    run --help
    cp log help.log
    right_status=0
    right_log=help.log
    in_turn --help
    run list
    cp log words.log
    right_status=2
    right_log=words.log
    in_turn list
    for line in "$no_memory" "$no_script_memory"; do
        judge "a refused growth gives the line $line" test -n "${lines_told[$line]-}"
    done
fi

finish
