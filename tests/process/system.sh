#!/usr/bin/env bash
# Tests the code without a contract, by which the program opens, reads, writes, and syncs files and streams.
set -u
. "$(dirname "$0")/../lib/helpers.sh"

here=$(pwd -P)
prepare_large
make_large 2351
has_strace=
if ! missing strace strace 'calls of the system'; then
    strace -qq -o trace -e inject=read:error=EIO:when=1 true 2> /dev/null
    if [ -s trace ]; then
        has_strace=1
    else
        skip 'calls of the system, which want a strace that may trace'
    fi
fi

# row NAME CHECK: judges that a check passes for the program.
row() { judge "$1" checked "$2"; }

# Runs a check. Messages of the shell about a signal, and of tools about a missing file, are discarded.
checked() {
    rm -rf out log errors rest trace
    "$1" 2> /dev/null
}

# traced NAME..: a row that needs strace.
traced() {
    [ -z "$has_strace" ] || row "$@"
}

# answers COMMAND: whether the last run gave the right status, text, and OUT, and nothing on standard error.
answers() {
    case $1 in
        list) [ "$status" = 0 ] && cmp -s log list.log ;;
        audit) [ "$status" = 1 ] && cmp -s log audit.log ;;
        check) [ "$status" = 0 ] && cmp -s log large.log ;;
        apply) [ "$status" = 0 ] && cmp -s log large.log && cmp -s out patched ;;
    esac && [ ! -s errors ]
}

# ---- IMAGE and SCRIPT

# Standard input is read from its current position.
standard_input_from_its_place() {
    {
        dd bs=2352 count=1 of=/dev/null status=none
        "$program" list - > log 2> errors
    } < image
    printf '0-38 mode1\n39-48 nosync\n49-82 mode1\nsectors 83 tail 2351\n' | cmp -s - log
}

# If IMAGE is a file, standard input is not read, so that a loop that reads names from it continues.
standard_input_left_alone() {
    local command words
    for command in list audit check apply; do
        words=("$command" image)
        [[ $command == list || $command == audit ]] || words+=(large.script)
        [ $command != apply ] || words+=(out)
        {
            "$program" "${words[@]}" > log 2> errors
            status=$?
            cat > rest
        } < large.log
        answers $command && cmp -s rest large.log || return
    done
}

# Two runs read one image and one script at the same time. The first waits after reading both: its text does not fit into a full pipe.
two_runs_at_once() {
    local first ended
    mkfifo full
    exec 7<> full
    rm full # its ends are left
    dd if=/dev/zero of=/proc/self/fd/7 oflag=nonblock bs=4096 2> /dev/null
    "$program" check image large.script >&7 2> first_errors < /dev/null &
    first=$!
    for _ in {1..3000}; do
        [[ $(ls -l "/proc/$first/fd" 2> /dev/null) == *"$here/image"* ]] && break
        sleep 0.01
    done
    run check image large.script
    dd if=/proc/self/fd/7 of=/dev/null iflag=nonblock bs=4096 2> /dev/null
    wait $first
    ended=$?
    exec 7>&-
    answers check && [ $ended = 0 ] && [ ! -s first_errors ]
}

# Links to files and to a directory are followed.
links_are_followed() {
    ln -sf image linked
    ln -sf large.script linked_script
    mkdir -p room
    ln -sfn room linked_room
    run list linked
    answers list || return
    run apply linked linked_script linked_room/out
    mv room/out out && answers apply
}

# Names may begin or end with blanks and line feeds.
names_are_taken_as_they_are() {
    local blank
    for blank in ' ' $'\t' $'\n'; do
        cp image "image$blank"
        cp large.script "script$blank"
        run apply "image$blank" "script$blank" "out$blank"
        mv "out$blank" out && answers apply || return
        rm "image$blank" "script$blank" out
    done
}

# Memory does not grow with the length of the image.
images_take_no_memory() {
    (
        ulimit -v 8000
        "$program" list longest > log 2> errors < /dev/null
    )
    printf '0-999999 nosync\nsectors 1000000 tail 0\n' | cmp -s - log || return
    (
        ulimit -v 8000
        "$program" check longest none.script > log 2> errors < /dev/null
    )
    echo 'applied 0 refused 0' | cmp -s - log || return
    (
        ulimit -v 8000
        "$program" apply long none.script out > log 2> errors < /dev/null
    )
    echo 'applied 0 refused 0' | cmp -s - log && cmp -s out long
}

# resident WORD..: prints the maximum resident size in kB of the program with these arguments, measured after it has read 47 MB of standard
# input, except for the last bytes, which the pipe may still hold.
resident() {
    local size
    mkfifo coming
    "$program" "$@" < coming > log 2> errors &
    exec 7> coming
    rm coming
    head -c 47040000 /dev/zero >&7
    size=$(sed -n 's/^VmHWM:[^0-9]*\([0-9]*\) kB$/\1/p' "/proc/$!/status")
    exec 7>&-
    wait $! && echo "$size"
    rm -f out
}

# No command keeps the image in memory. A limit on memory cannot test this: a program may keep what it reads, and continue when it gets no
# more memory.
images_are_not_kept() {
    local image
    for image in - /dev/stdin; do
        [ "$(resident list $image)" -lt 8000 ] && [ "$(resident audit $image)" -lt 8000 ] &&
            [ "$(resident check $image none.script)" -lt 8000 ] && [ "$(resident apply $image none.script out)" -lt 8000 ] || return
    done
}

# A block device, such as a drive.
block_device() {
    run list "$device"
    printf '0-31 mode1\nsectors 32 tail 0\n' | cmp -s - log && [ "$status" = 0 ]
}

# Files and standard input are read 65,856 bytes at a time.
reads_are_large() {
    local given
    for given in image -; do
        strace -qq -s 0 -o trace -P "$here/image" -e trace=read "$program" list $given > log 2> errors < image
        [ "$(grep -c ', 65856) ' trace)" = "$(wc -l < trace)" ] && [ "$(wc -l < trace)" = 5 ] || return
    done
}

truncate -s 2352000000 longest
truncate -s 9408000 long
echo 'cdpatch 1' > none.script
row 'the standard input is read from its place on' standard_input_from_its_place
row 'the standard input is not touched' standard_input_left_alone
row 'two runs at once on one image' two_runs_at_once
row 'links are followed' links_are_followed
row 'names are taken as they are' names_are_taken_as_they_are
row 'an image takes no memory' images_take_no_memory
row 'an image is not kept' images_are_not_kept
traced 'a read for each buffer' reads_are_large
for _ in 1 2 3 4; do cat "$vectors"; done > whole
if device=$(losetup --find --show whole 2> /dev/null); then
    trap 'losetup -d "$device"; rm -rf "$scratch"' EXIT
    row 'a block device as image' block_device
    losetup -d "$device"
    trap 'rm -rf "$scratch"' EXIT
else
    skip 'a block device as image, which wants losetup and a user who may use it'
fi

# ---- OUT, and files that nobody requested

# OUT is created in one call, and opened only for writing. The umask decides who else may use it.
out_is_made_new() {
    strace -qq -o trace -P "$here/out" -e trace=open,openat "$program" apply image large.script "$here/out" > log 2> errors
    grep -qF '/out", O_WRONLY|O_CREAT|O_EXCL|O_NOCTTY|O_CLOEXEC, 0666) = ' trace && [ "$(wc -l < trace)" = 1 ]
}

# OUT has the right bytes; the last of them are less than a buffer.
out_is_written() {
    run apply image large.script out
    answers apply
}

# No file other than OUT is left in the working directory, in the temporary directory, or at home.
no_other_file_is_left() {
    rm -rf work temporary home
    mkdir work temporary home
    (
        cd work || exit
        TMPDIR=../temporary HOME=../home "$program" apply ../image ../large.script out > ../log 2> ../errors < /dev/null
    )
    [ "$(find work temporary home | sort | paste -sd ' ')" = 'home temporary work work/out' ]
}

# No other file is opened for writing, created, removed, or renamed.
no_other_file_is_touched() {
    strace -qq -o trace -e trace=%file,ftruncate,fchmod,fchown "$program" apply image large.script out > log 2> errors
    grep -E 'O_WRONLY|O_RDWR|O_CREAT|O_TRUNC|^(unlink|rename|mkdir|rmdir|link|symlink|mknod|f?truncate|f?chmod|[fl]?chown|utime)' \
        trace > touched
    [ "$(wc -l < touched)" = 1 ] && grep -q '"out"' touched
}

# A limit on file sizes as a shell sets it, with its signal: the program is killed, as the man page says.
size_limit_kills() {
    (
        ulimit -f 4
        exec "$program" apply image large.script out > log 2> errors
    ) 2> /dev/null
    [ $? = 153 ] && [ ! -s log ] && [ ! -s errors ] && within out patched && [ "$(stat -c %s out)" = 4096 ]
}

# Bytes sent to OUT before a failed read of the image are written.
out_has_what_was_sent() {
    strace -qq -o trace -P "$here/image" -e inject=read:error=EIO:when=3 "$program" apply "$here/image" large.script out > log 2> errors
    [ $? = 2 ] && within out patched && [ "$(stat -c %s out)" -ge $((2 * 65856 - 2352)) ]
}

traced 'OUT is made new, in one call' out_is_made_new
row 'OUT has the right bytes' out_is_written
row 'no other file is left' no_other_file_is_left
traced 'no other file is touched' no_other_file_is_touched
row 'a limit on file sizes kills' size_limit_kills
traced 'OUT has what was sent' out_has_what_was_sent

# ---- errors of all kinds, and two in one run

kinds='EAGAIN EACCES EPERM EOPNOTSUPP ENOSYS EINVAL ENXIO ETIMEDOUT ENOSPC'

# fails CALL FILE LINE WHEN [IMAGE]: in a run of `apply` this call on a file fails with each kind of error in turn. It must be the last call
# on its file, this line must be the last of the log, and the status must be 2.
fails() {
    local kind
    for kind in $kinds; do
        rm -f out
        strace -qq -s 0 -o trace -P "$here/$2" -e "trace=$1" -e "inject=$1:error=$kind:when=$4" "$program" apply "${5-$here/image}" \
            "$here/large.script" "$here/out" > log 2> errors < image
        [ $? = 2 ] && [ "$(tail -n 1 log)" = "$3" ] && [ ! -s errors ] && [ "$(wc -l < trace)" = "$4" ] || return
        [ ! -e out ] || within out patched || return
    done
}

reads_of_the_image_fail() { fails read image "$read_failed" 3; }
reads_of_the_standard_input_fail() { fails read image "$read_failed" 3 -; }
reads_of_the_script_fail() { fails read large.script "$no_script" 2; }
writes_of_out_fail() { fails write out "$write_failed" 2; }
writes_of_the_log_fail() { fails write log '' 1; }
syncs_of_out_fail() { fails fdatasync out "$write_failed" 1; }

traced 'each kind of error of a read of the image' reads_of_the_image_fail
traced 'each kind of error of a read of the standard input' reads_of_the_standard_input_fail
traced 'each kind of error of a read of the script' reads_of_the_script_fail
traced 'each kind of error of a write to OUT' writes_of_out_fail
traced 'each kind of error of a write of the log' writes_of_the_log_fail
traced 'each kind of error of a sync' syncs_of_out_fail

# two_faults FILE CALLS FAULT..: runs `apply` with a log of several buffers, and injects these faults into calls on OUT and on a different
# file. The calls on OUT are in `trace`.
two_faults() {
    local file=$1 fault injected=()
    for fault in "${@:2}"; do
        injected+=(-e "inject=$fault")
    done
    rm -f out
    strace -qq -y -s 0 -o calls -P "$here/$file" -P "$here/out" -e trace=read,write,fdatasync "${injected[@]}" "$program" apply \
        "$here/image" "$here/long.script" "$here/out" > log 2> errors < /dev/null
    status=$?
    grep '/out>' calls > trace
    [ $status = 2 ] && [ ! -s errors ] && within out image || return
    [ "$(grep -c ' = -1 ' calls)" = 2 ] && [[ $(tail -n 1 trace) == *' = -1 '* ]]
}

# The image or the log fails, and then OUT: the failed call on OUT is its last.
second_fault_in_a_write() {
    two_faults image read:error=EIO:when=3 write:error=ENOSPC:when=2+ || return
    [ "$(tail -n 1 log)" = "$read_failed" ] || return
    two_faults log write:error=ENOSPC:when=1+ && [ ! -s log ]
}
second_fault_in_a_sync() {
    two_faults image read:error=EIO:when=3 fdatasync:error=EIO:when=1+ || return
    [ "$(tail -n 1 log)" = "$read_failed" ] && [ "$(stat -c %s out)" -ge $((2 * 65856 - 2352)) ] || return
    two_faults log write:error=ENOSPC:when=1 fdatasync:error=EIO:when=1+ && [ ! -s log ]
}

# A read of no bytes is the end of IMAGE and of SCRIPT, although the next read would return more.
first_end_is_the_end() {
    strace -qq -o trace -P "$here/image" -e inject=read:retval=0:when=2 "$program" list "$here/image" > log 2> errors &&
        [ "$(tail -n 1 log)" = 'sectors 28 tail 0' ] || return
    strace -qq -o trace -P "$here/large.script" -e inject=read:retval=0:when=1 "$program" check image "$here/large.script" > log 2> errors
    [ $? = 2 ] && [ "$(wc -l < log)" = 1 ]
}
traced 'a read of no byte is the end' first_end_is_the_end

# synced STATUS SYNCS SCRIPT FAULT..: whether a run of `apply` with these faults has this status, syncs OUT this many times, and writes
# nothing to it afterwards.
synced() {
    local fault injected=()
    for fault in "${@:4}"; do
        injected+=(-e "inject=$fault")
    done
    rm -f out
    strace -qq -y -s 0 -o calls -P "$here/image" -P "$here/log" -P "$here/out" -e trace=read,write,fsync,fdatasync \
        "${injected[@]}" "$program" apply "$here/image" "$here/$3" "$here/out" > log 2> errors < /dev/null
    [ $? = "$1" ] && [ ! -s errors ] || return
    grep '/out>' calls > trace
    [ "$(grep -c 'sync(' trace)" = "$2" ] && { [ "$2" = 0 ] || [[ $(tail -n 1 trace) == fdatasync* ]]; }
}

# Contracts do not cover a sync: for them a flush is a call of `finish`.
syncs_of_each_status() {
    synced 0 1 large.script && synced 1 1 refused.script || return
    # If the image or the log fails, the sent bytes are synced. If OUT itself fails, nothing is.
    synced 2 1 large.script read:error=EIO:when=3 && synced 2 1 long.script write:error=ENOSPC:when=1 || return
    synced 2 0 large.script write:error=ENOSPC:when=1
}

{ echo 'cdpatch 1'; echo 'set 1000000 0 41'; } > refused.script
{ echo 'cdpatch 1'; yes 'rebuild 3' | head -n 9000; } > long.script
traced 'OUT is synced once, after the last write, with each status' syncs_of_each_status
traced 'a fault, and then one of a write to OUT' second_fault_in_a_write
traced 'a fault, and then one of a sync' second_fault_in_a_sync

# ---- the standard output, and terminals

# A terminal gets each line in a separate write, whatever the other streams are.
terminal_gets_lines() {
    python3 "$tests/process/terminal.py" damaged 0 first end sh -c 'exec strace -qq -s 0 -o trace -e trace=write "$0" "$@" 2> errors' \
        "$program" audit - > log
    [ "$(wc -l < trace)" = 3 ] && [ "$(cat end)" = 1 ]
}

# A file gets all lines in one write, even if the other streams are terminals.
file_gets_all_at_once() {
    python3 "$tests/process/terminal.py" damaged 0 first end sh -c 'exec strace -qq -s 0 -o trace -e trace=write "$0" "$@" < /dev/tty > log' \
        "$program" audit damaged > shown
    [ "$(wc -l < trace)" = 1 ] && [ "$(wc -l < log)" = 3 ] && [ ! -s shown ]
}

# The line about missing memory is printed if there is none for the buffer of standard output.
want_of_memory_is_printed() {
    REFUSE=1 REFUSED=refused LD_PRELOAD=$scratch/refuse.so "$program" list image > log 2> errors
    [ $? = 2 ] && [ "$(cat log)" = "$no_memory" ]
}

for number in 0 1; do
    head -c 2351 sector.$number
    printf '\377'
done > damaged
if [ -n "$has_strace" ]; then
    row 'a terminal gets each line at once' terminal_gets_lines
    row 'a file gets all lines at once' file_gets_all_at_once
fi
if compiled refuse 'want of memory for the standard output'; then
    row 'want of memory is printed' want_of_memory_is_printed
fi

# ---- arguments

# A superfluous argument is refused, however many arguments precede it.
arguments_are_all_read() {
    run apply image large.script out --base 5 --carry more
    [ "$status" = 2 ] && grep -q '^error: ' log && [ ! -s errors ] && [ ! -e out ] || return
    run apply --carry --base 5 -- image large.script out more
    [ "$status" = 2 ] && grep -q '^error: ' log && [ ! -s errors ] && [ ! -e out ]
}

arguments_must_be_text() {
    run list $'\xff'
    [ "$status" = 2 ] && echo "$no_text" | cmp -s - log
}

row 'all arguments are read' arguments_are_all_read
row 'arguments that are not text' arguments_must_be_text

# ---- closed standard streams

# with_closed STREAMS WORD..: runs the program with these arguments and these streams closed. Standard output goes to `log` if it is open,
# and standard input is the image.
with_closed() {
    local closed=$1 streams
    shift
    streams="$([[ $closed == *0* ]] && echo '<&-' || echo '< image')"
    streams+=" $([[ $closed == *1* ]] && echo '>&-' || echo '> log') $([[ $closed == *2* ]] && echo '2>&-' || echo '2> errors')"
    rm -f out log errors
    : > log
    eval "$before"' sh -c '"'exec \"\$0\" \"\$@\" $streams'"' "$program" "$@"' 2> /dev/null
    status=$?
}

# Reading from a closed stream fails, and so does writing to one. None of the user's files is used in its place.
closed_streams_are_no_files() {
    local closed before=
    for closed in 0 1 2 01 02 12 012; do
        with_closed $closed apply image large.script out
        case $closed in
            *1*) [ $status = 2 ] && cmp -s out patched || return ;;
            *) answers apply || return ;;
        esac
        with_closed $closed apply - large.script out
        case $closed in
            *0*) [ $status = 2 ] && [ ! -s out ] || return ;;
            *1*) [ $status = 2 ] && cmp -s out patched || return ;;
            *) answers apply || return ;;
        esac
        [[ $closed == 0* && $closed != *1* ]] || continue
        [ "$(cat log)" = "$read_failed" ] || return
    done
}

# Without a root directory to occupy its number, a closed stream is an error before any file is opened. If all streams are open, none is
# needed.
closed_streams_without_a_root() {
    local closed before='strace -qq -o trace -P / -e inject=open,openat:error=EACCES'
    for closed in 0 1 2 01 02 12 012; do
        for given in image -; do
            with_closed $closed apply $given large.script out
            [ $status = 2 ] && [ ! -e out ] || return
            [[ $closed == *1* ]] || cmp -s log <(echo "$no_root") || return
        done
    done
    with_closed none apply image large.script out
    answers apply
}

# None of the user's files gets the number of a closed stream.
numbers_are_above_those_of_streams() {
    local closed before='strace -qq -o trace -e trace=open,openat,execve'
    for closed in 0 1 2 01 02 12 012; do
        with_closed $closed apply image large.script out
        sed '1,/^execve.*"apply"/d' trace | grep -E '^open.*"(image|large.script|out)"' > opened
        [ "$(wc -l < opened)" = 3 ] && ! grep -q ' = [012]$' opened || return
    done
}

row 'closed streams are no files' closed_streams_are_no_files
traced 'no file gets the number of a closed stream' numbers_are_above_those_of_streams
traced 'closed streams without a root directory' closed_streams_without_a_root

# ---- signals

# ends_by SIGNAL STATUS: sends a signal to the program while it waits for a pipe. It must end at once, before the end of the pipe. OUT is
# kept and has a prefix; the log, which goes to a file, is lost.
ends_by() {
    local run
    rm -f out feed
    mkfifo feed
    env --default-signal=HUP,INT,TERM "$program" apply - large.script out > log 2> errors < feed &
    run=$!
    exec 6> feed
    cat image >&6
    for _ in {1..3000}; do
        [ "$(stat -c %s out 2> /dev/null)" = 131712 ] && break
        sleep 0.01
    done
    kill "-$1" $run
    exec 6>&-
    wait $run
    [ $? = "$2" ] && within out patched && [ "$(stat -c %s out)" = 131712 ] && [ ! -s log ] && [ ! -s errors ]
}

ended_by_sigterm() { ends_by TERM 143; }
ended_by_sighup() { ends_by HUP 129; }
ended_by_ctrl_c() { ends_by INT 130; }

row 'SIGTERM ends it' ended_by_sigterm
row 'SIGHUP ends it' ended_by_sighup
row 'Ctrl-C ends it' ended_by_ctrl_c

# ---- old machines

# too_old STATUS TEXT: whether the program did not run, and this text is on standard error.
too_old() {
    [ "$status" = "$1" ] && [ ! -s log ] && [ ! -e out ] && grep -qF "$2" errors
}

old_processor() {
    LD_PRELOAD=$here/old_processor.so "$program" apply image large.script out > log 2> errors
    status=$?
    too_old 127 x86-64-v2
}

# The program with a different name for the newest part of the C library that it requires.
old_c_library() {
    sed 's/GLIBC_2\.34/GLIBC_2.94/' "$program" > newer
    chmod +x newer
    ./newer apply image large.script out > log 2> errors
    status=$?
    too_old 1 GLIBC_2.94
}

if compiled old_processor 'an old processor'; then
    row 'an old processor' old_processor
fi
judge 'an old C library' checked old_c_library

finish
