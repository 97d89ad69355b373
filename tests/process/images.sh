#!/usr/bin/env bash
# Patches and lists images of several buffers through files, pipes, and standard input, byte for byte.
#
# The expected bytes are computed without the program: those of the large image as described in `helpers.sh`, and an image without patches
# must stay the same.
set -u
. "$(dirname "$0")/../lib/helpers.sh"

prepare_large

# printed STATUS TEXT NAME: judges that the last run had this status, printed the text in this file, and nothing on standard error.
printed() {
    judge "$3: the status" test "$status" = "$1"
    judge "$3: the text" cmp -s "$2" log
    judge "$3: nothing on standard error" test ! -s errors
}

# made IMAGE NAME: judges that `out` equals this image, and removes it.
made() {
    judge "$2: the output" cmp -s out "$1"
    rm -f out
}

# ---- the four commands, on files and on the standard input

for size in 0 1 2351; do
    name="tail of $size"
    make_large $size
    judge "$name: the image" test "$(stat -c %s image)" = $((3 * 65856 + size))

    run list image
    printed 0 list.log "list, $name"
    run audit image
    printed 1 audit.log "audit, $name"
    run check image large.script
    printed 0 large.log "check, $name"
    run apply image large.script out
    printed 0 large.log "apply, $name"
    made patched "apply, $name"

    "$program" list - > log 2> errors < image
    status=$?
    printed 0 list.log "list of the standard input, $name"
    "$program" > log 2> errors < image
    status=$?
    printed 0 list.log "no words, $name"
    "$program" audit - > log 2> errors < image
    status=$?
    printed 1 audit.log "audit of the standard input, $name"
    "$program" check - large.script > log 2> errors < image
    status=$?
    printed 0 large.log "check of the standard input, $name"
    "$program" apply - large.script out > log 2> errors < image
    status=$?
    printed 0 large.log "apply to the standard input, $name"
    made patched "apply to the standard input, $name"

    dd if=image bs=64K status=none | "$program" apply - large.script out > log 2> errors
    status=$?
    printed 0 large.log "apply to a pipe, $name"
    made patched "apply to a pipe, $name"
    dd if=image bs=64K status=none | "$program" audit - > log 2> errors
    status=$?
    printed 1 audit.log "audit of a pipe, $name"
    mkfifo fifo
    cat image > fifo &
    run apply fifo large.script out
    kill $! 2> /dev/null # where the program has not read it all
    wait
    printed 0 large.log "apply to a FIFO, $name"
    made patched "apply to a FIFO, $name"
    rm fifo
done

# ---- a pipe in chunks of all sizes, each read separately

# fed SIZE WORD..: runs the program with these arguments. Its standard input is a pipe that delivers the image in chunks.
fed() {
    local size=$1
    shift
    python3 "$tests/process/feed.py" "$size" image | "$program" "$@" > log 2> errors
    status=$?
}

for size in 1 7 2351 2352 2353 4096 65535 65536; do
    if [ $size = 1 ]; then
        # Each chunk waits for the reader, so there are few.
        joined 0 1 2 > image
        joined 3 1 2 > patched
        printf 'cdpatch 2\naddress 0 00:02:03\nset 0 0 %s\n' "${user[3]}" > small
        printf 'line 2: applied\nline 3: applied\napplied 2 refused 0\n' > small.log
        printf '0-2 mode1\nsectors 3 tail 0\n' > list.log
        fed 1 apply - small out
        printed 0 small.log 'apply to chunks of 1 byte'
        made patched 'apply to chunks of 1 byte'
    else
        make_large 2351
        fed $size apply - large.script out
        printed 0 large.log "apply to chunks of $size bytes"
        made patched "apply to chunks of $size bytes"
    fi
    fed $size list -
    printed 0 list.log "list of chunks of $size bytes"
done

# ---- sectors patched one at a time give the same result as all of them in one image

make_large 100
echo 'cdpatch 1' > script
: > wanted_image
for ((block = 0; block < blocks; block += 3)); do
    echo "fill $block $((block * 24)) $((block + 1)) $(printf %02x $block)"
done >> script
run apply image script out
judge 'fills: the status' test "$status" = 1
mv out filled
for ((block = 0; block < blocks; block++)); do
    printf 'cdpatch 1\n%s\n' "$(grep "^fill $block " script | sed "s/^fill $block/fill 0/")" > single
    run apply "sector.$(old_at $block)" single out
    cat out >> wanted_image
    rm -f out
done
cat sector.end >> wanted_image
judge 'fills: the output is that of the sectors one at a time' cmp -s filled wanted_image

# ---- images without patches, with lengths near those of sectors and buffers, and bytes across both

echo 'cdpatch 1' > script
echo 'applied 0 refused 0' > none.log
for ((number = 0; number < 15; number++)); do
    tail -c +2 "$vectors"
done > noise
for size in 0 1 2351 2352 2353 65535 65536 65537 65855 65856 65857 131071 131072 131712 131713 197567 197568 200001 263412; do
    head -c $size noise > image
    run apply image script out
    printed 0 none.log "no patch, $size bytes"
    made image "no patch, $size bytes"
    "$program" apply - script out > log 2> errors < image
    status=$?
    printed 0 none.log "no patch on the standard input, $size bytes"
    made image "no patch on the standard input, $size bytes"
    dd if=image bs=64K status=none | "$program" apply - script out > log 2> errors
    status=$?
    printed 0 none.log "no patch on a pipe, $size bytes"
    made image "no patch on a pipe, $size bytes"
    if [ $size -ge 2352 ]; then
        echo "0-$((size / 2352 - 1)) nosync" > list.log
    else
        : > list.log
    fi
    echo "sectors $((size / 2352)) tail $((size % 2352))" >> list.log
    run list image
    printed 0 list.log "list, $size bytes"
done

# ---- disks that become full, before and after the end of a buffer

make_large 2351

# full ROOM NAME: judges the last run, after which `out` must have exactly this many bytes of the patched image.
full() {
    judge "$2: the status" test "$status" = 2
    judge "$2: the last line" test "$(tail -n 1 log)" = "$write_failed"
    head -n -1 log > before
    judge "$2: the lines before it" within before large.log
    judge "$2: nothing on standard error" test ! -s errors
    judge "$2: the output's size" test "$(stat -c %s out)" = "$1"
    judge "$2: the output is a prefix" within out patched
    rm -f out
}

for blocks in 0 1 2 64 65 128 129 194; do
    # The limit applies to each file that the program writes, so its text goes through a pipe.
    (
        trap '' XFSZ
        ulimit -f $blocks
        exec "$program" apply image large.script out < /dev/null 2> errors
    ) | cat > log
    status=${PIPESTATUS[0]}
    full $((1024 * blocks)) "a limit of $((1024 * blocks)) bytes"
done
mkdir disk
if mount -t tmpfs -o size=128k none disk 2> /dev/null; then
    trap 'umount "$scratch/disk"; rm -rf "$scratch"' EXIT
    "$program" apply image large.script disk/out > log 2> errors
    status=$?
    cp disk/out out
    full 131072 'a full disk'
else
    skip 'a full disk, which wants a user who may mount one'
fi

# ---- lines on a terminal, which are shown while the program waits for the rest of the image

# shows LINES WORD..: runs the program with these arguments on a terminal. Its standard input gets `image` and stays open. After this many
# lines, which are written to `first`, Ctrl-C is sent. `log` has everything that was shown.
shows() {
    python3 "$tests/process/terminal.py" image "$1" first end "$program" "${@:2}" > log 2> errors
}

# seen NAME TEXT: judges that these lines were shown while the program waited, and that Ctrl-C, which ended the run, lost none.
seen() {
    printf '%b' "$2" > wanted
    judge "$1: the lines show" cmp -s first wanted
    sed 's/^^C//' log > shown
    judge "$1: none is lost" within first shown
    judge "$1: Ctrl-C ends it" test "$(cat end)" = 'signal 2'
    judge "$1: no fault of the test" test ! -s errors
}

if command -v python3 > /dev/null; then
    {
        for number in 0 1 2; do
            head -c 2351 sector.$number
            printf '\377'
        done
    } > image
    head -c 2351 sector.3 >> image
    shows 3 audit -
    seen 'audit on a terminal' '0 q=1\n1 q=1\n2 q=1\n'

    { joined 0 1; head -c 2352 /dev/zero; joined 3; } > image
    shows 2 list -
    seen 'list on a terminal' '0-1 mode1\n2-2 nosync\n'
    shows 2
    seen 'no words on a terminal' '0-1 mode1\n2-2 nosync\n'

    joined 0 1 2 3 4 5 > image
    printf 'cdpatch 1\nset 1 0 41\nset 0 0 41\nset 0 0 41 was 42\nset 5 2047 4141\n' > script
    shows 3 check - script
    seen 'check on a terminal' 'line 3: applied\nline 4: refused: old bytes differ at block 0 offset 0\nline 2: applied\n'
    shows 3 apply - script out
    seen 'apply on a terminal' 'line 3: applied\nline 4: refused: old bytes differ at block 0 offset 0\nline 2: applied\n'
    judge 'an output is there' test -f out
    rm -f out

    # To the end, without Ctrl-C.
    shows 0 apply - script out
    printf 'line 3: applied\nline 4: refused: old bytes differ at block 0 offset 0\nline 2: applied\n%s\n%s\n' \
        'line 5: refused: no block 6' 'applied 2 refused 2' > wanted
    judge 'apply on a terminal to the end' cmp -s log wanted
    judge 'its status' test "$(cat end)" = 1
    rm -f out
fi

finish
