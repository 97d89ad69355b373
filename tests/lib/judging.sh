# Gives a suite in shell a scratch directory, which is removed at the end, and counts its tests. tests/run starts the suite with the program
# as its argument, and reads its lines: 'FAILED: TEST', 'skipped: WHAT', and at the end 'N passed, M failed'.

scratch=$(mktemp -d)
trap 'rm -rf "$scratch"' EXIT
passed=0
failed=0

# limit NAME: prints the number of a row in the man page's table of limits.
limit() {
    sed -n "/^\.Sh LIMITS/,/^\.El/{/^\.It $1\$/{n;s/.* //;p}}" "$top/man/cdpatch.1"
}

. "$top/tests/lib/messages.sh"

# judge NAME CONDITION..: counts a test that passes if a command succeeds. If NAMED has lines, it counts only tests with one of them in their
# names. The commands of the others run too, since later tests may need what they leave.
judge() {
    local name=$1 judged=0
    shift
    "$@" || judged=1
    if [ -n "${NAMED-}" ] && ! grep -qF -e "$NAMED" <<< "$name"; then
        return 0
    elif [ $judged = 0 ]; then
        passed=$((passed + 1))
    else
        failed=$((failed + 1))
        echo "FAILED: $name"
    fi
}

# skip WHAT: says that WHAT could not be tested here. If WHOLE is set, tests/run takes that for a failure.
skip() { echo "skipped: $1"; }

# missing COMMAND PACKAGE [WHAT]: whether a command is missing. If so, records that WHAT is skipped.
missing() {
    command -v "$1" > /dev/null && return 1
    skip "${3-a part}, which needs $1 (Debian's package $2)"
}

# Prints the counts, and fails if a test failed.
finish() {
    echo "$passed passed, $failed failed"
    [ "$failed" = 0 ]
}
