#!/usr/bin/env bash
# Builds the program of a copy of the crates without a proof: `bash build.sh CRATES PROGRAM`. `rt try` keeps no file, so the program is
# copied while it waits for the image that it is to list.
set -u
crates=$1
program=$2
scratch=$(mktemp -d)
trap 'rm -rf "$scratch"' EXIT
mkfifo "$scratch/image"

# descendants PROCESS: prints the processes that it started, and their descendants.
descendants() {
    local process
    for process in $(pgrep -P "$1"); do
        echo "$process"
        descendants "$process"
    done
}

# Prints the path of the program that lists the image, once it runs.
waiting_program() {
    local process words
    for process in $(descendants "$trying"); do
        words=$(tr '\0' '\n' < "/proc/$process/cmdline" 2> /dev/null)
        grep -qxF "$scratch/image" <<< "$words" && grep -m 1 '^/.*/program$' <<< "$words"
    done
}

(cd "$crates/cdpatch" && exec rt try --seconds 600 -- list "$scratch/image") > "$scratch/log" 2>&1 < /dev/null &
trying=$!
while kill -0 "$trying" 2> /dev/null; do
    path=$(waiting_program)
    if [ -n "$path" ]; then
        cp "$path" "$program"
        : > "$scratch/image"
        break
    fi
    sleep 0.5
done
wait "$trying"
[ -x "$program" ] || { grep -m 1 error "$scratch/log" || tail -n 1 "$scratch/log"; exit 1; }
