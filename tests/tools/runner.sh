#!/usr/bin/env bash
# Tests tests/run: it counts what fails, and a signal ends all that it has started.
set -u
. "$(dirname "$0")/../lib/helpers.sh"
# Otherwise a command in the background ignores SIGINT.
set -m
mkdir temporary

# running: prints the number of processes of the runner and its tests, which have this place for their temporary files.
running() { grep -lzs "^TMPDIR=$PWD/temporary" /proc/[0-9]*/environ | wc -l; }

# ended_by SIGNAL: whether a run of the page, or of two small suites, ends by a signal, and leaves no process and no file.
ended_by() {
    local suites=(page) runner
    command -v chromium > log || suites=(program cases)
    TMPDIR=$PWD/temporary PROGRAM=$program "$tests/run" "${suites[@]}" > log 2>&1 &
    runner=$!
    for _ in {1..1200}; do
        [ "$(running)" -gt 3 ] && sleep 5 && break
        sleep 0.1
    done
    kill "-$1" $runner
    wait $runner
    [ $? = $((128 + $(kill -l "$1"))) ] && [ "$(running)" = 0 ] && [ -z "$(ls temporary)" ]
}

for signal in INT TERM HUP; do
    judge "SIG$signal ends all tests, and their files are removed" ended_by $signal
done
# A program that only notes which signals it ignores.
printf '#!/bin/sh\ngrep ^SigIgn: /proc/$$/status >> %q\nexit 1\n' "$PWD/ignored" > teller
chmod +x teller
(trap '' HUP INT && PROGRAM=$PWD/teller "$tests/run" program > log 2>&1)
judge 'a program that does nothing fails' test $? = 1
judge 'what the runner ignores, as under nohup, its tests do not' grep -q '[048c]$' ignored
judge 'each failure has its name' test "$(grep -c '^FAILED: ' log)" -gt 10
judge 'the last line has the counts' grep -qE '^[0-9]+ passed, [1-9][0-9]+ failed$' <(tail -n 1 log)
"$tests/run" core 'no test has these words' > log 2>&1
judge 'words that no test has are a failure' test "$? $(tail -n 1 log)" = '1 0 passed, 1 failed'
finish
