#!/usr/bin/env bash
# Tests the program as a process on real files, and its messages about files that are missing, are not files, or contain no script.
set -u
. "$(dirname "$0")/../lib/helpers.sh"

# The README's first example.
cp "$vectors" image
printf 'cdpatch 1\n# five user bytes of block 1, from offset 16 on\nset 1 16 48454C4C4F\n' > script
keep
run apply image script out
judge 'the first example' ended 0 'line 3: applied\napplied 1 refused 0\n'
run audit out
judge 'the audit of the first example' ended 0 'sectors 8 mode1 8 damaged 0 tail 0\n'
judge 'the bytes of the first example' test "$(tail -c +2385 out | head -c 5)" = HELLO
rm out

# Three sectors of zeros, including the sync field: no patch on them is accepted.
head -c 7056 /dev/zero > blank
# The sectors of an image by other software, from block 0.
head -c 7056 "$vectors" > image
printf 'cdpatch 1\nset 1 0 41\n' > script
keep

applied='line 2: applied\napplied 1 refused 0\n'

run apply image script out
judge 'a patch is applied' ended 0 "$applied"
judge 'the output has the size of the image' test "$(stat -c %s out)" = 7056
cmp -s image out
judge 'the output is not the image' test $? = 1
cp out patched

rm out

run audit patched
judge 'the patched image is sound' ended 0 'sectors 3 mode1 3 damaged 0 tail 0\n'

run check image script
judge 'a check prints what apply prints' ended_without_output 0 "$applied"

run apply image script out --base 2
judge 'the base counts' ended 1 'line 2: refused: no block 1\napplied 0 refused 1\n'
judge 'a refused patch changes nothing' cmp -s out image
rm out
run check image script --base 2
judge 'the base of a check counts' ended_without_output 1 'line 2: refused: no block 1\napplied 0 refused 1\n'

{ head -c 2351 image; printf '\377'; tail -c 4704 image; } > damaged
printf 'cdpatch 1\nset 0 0 41\n' > first
run check damaged first
judge 'a damaged sector is refused' ended_without_output 1 'line 2: refused: block 0 is damaged\napplied 0 refused 1\n'
run apply damaged first out --carry
judge 'and is patched where damage is carried' ended 0 "$applied"
run audit out
judge 'its damage stays' ended 1 '0 q=1\nsectors 3 mode1 3 damaged 1 tail 0\n'
rm out

run apply blank script out
judge 'a refused patch has status 1' ended 1 'line 2: refused: block 1 is not mode 1\napplied 0 refused 1\n'
rm out

"$program" apply - script out < image > log 2> errors
status=$?
judge 'an image on the standard input' ended 0 "$applied"
judge 'the output of that' cmp -s out patched
rm out

run
judge 'no words list the standard input' ended 0 'sectors 0 tail 0\n'

cp image ./-
"$program" list - > log 2> errors < /dev/null
status=$?
judge 'the standard input comes before a file of the name -' ended 0 'sectors 0 tail 0\n'
rm ./-
"$program" apply image - out > log 2> errors < script
status=$?
judge 'a script is no standard input' ended_without_output 2 "$no_script\n"

# says LINE WORD..: judges that the program with these arguments prints only this line, has status 2, and creates no file.
says() {
    local line=$1
    shift
    run "$@"
    judge "$*" ended_without_output 2 "$line\n"
}
mkdir directory
printf 'cdpatch 1\nset 1 0 4\n' > wrong
: > empty
patches=$(limit 'patches of a script')
{ echo 'cdpatch 1'; yes 'rebuild 0' | head -n $((patches + 1)); } > many
truncate -s $(($(limit 'bytes of a script') + 1)) long
ln -s nothing dangling
ln -s image to_image
ln image same_image
echo kept > there
ln -s there to_there

# The script is read before the image is opened, and the image is opened before OUT is created.
for script in missing directory - ''; do
    says "$no_script" check image "$script"
    says "$no_script" apply missing "$script" out
done
says "$no_script" apply missing missing out
for image in image missing; do
    says "$long_script" apply $image long out
    says "script line 2: $bad_hex" apply $image wrong out
    says "script line 1: $no_head" apply $image empty out
    says "script line $((patches + 2)): more than $patches patches" apply $image many out
done
says "$long_script" check image long
says "script line 2: $bad_hex" check image wrong
says "$no_image" list ''
says "$no_image" audit missing
says "$no_image" check missing script
says "$no_image" apply missing script image
says "$no_image" apply '' script nowhere/out
says "$read_failed" list directory
says "$read_failed" check directory script
run apply directory script out
judge 'apply directory script out' ended 2 "$read_failed\n"
judge 'OUT is made before the image is read' test -e out -a ! -s out
rm out

# An existing file at the place of OUT is not changed.
for out in there image script directory nowhere/out dangling to_image same_image to_there '' /dev/null /dev/full /dev/stdout; do
    says "$no_output" apply image script "$out"
done
judge 'a file that is there stays' test "$(cat there)" = kept
judge 'nothing is made at the end of a link' test ! -e nothing
judge 'no directory is made' test ! -e nowhere
rm long same_image

# The shell holds both ends of the FIFO, so that nothing waits to open it.
mkfifo fifo
exec 5<> fifo
run apply image script fifo
judge 'a FIFO as output' ended 2 "$no_output\n"
judge 'nothing in the FIFO' test "$(echo end >&5; head -n 1 <&5 | head -c 9)" = end
exec 5>&-
run apply image script -
judge 'an output of the name -' ended 0 "$applied"
judge 'it is a file' cmp -s ./- patched
rm ./-

for mask in 000:666 002:664 022:644 027:640 077:600; do
    (umask "${mask%:*}" && run apply image script out; exit "$status")
    status=$?
    judge "an output under the umask ${mask%:*}" ended 0 "$applied"
    judge "its mode under ${mask%:*}" test "$(stat -c %a out)" = "${mask#*:}"
    rm -f out
done

# A read-only image and script, for a user without any other right to them.
mkdir shelf
cp "$program" shelf/cdpatch
cp image script shelf
chmod 755 . shelf shelf/cdpatch
chmod 444 shelf/image shelf/script
reader=()
if [ "$(id -u)" = 0 ] && ! missing setpriv util-linux 'an image that may only be read'; then
    reader=(setpriv --reuid=65534 --regid=65534 --clear-groups)
    chown 65534 shelf
fi
if [ "$(id -u)" != 0 ] || [ ${#reader[@]} != 0 ]; then
    (cd shelf && "${reader[@]}" ./cdpatch apply image script out) > log 2> errors
    status=$?
    judge 'an image that may only be read' ended 0 "$applied"
    judge 'the output of that' cmp -s shelf/out patched
    (cd shelf && "${reader[@]}" ./cdpatch audit image) > log 2> errors
    status=$?
    judge 'an audit of an image that may only be read' ended 0 'sectors 3 mode1 3 damaged 0 tail 0\n'
    chmod 000 shelf/image
    (cd shelf && "${reader[@]}" ./cdpatch list image) > log 2> errors
    status=$?
    judge 'an image that may not be read' ended 2 "$no_image\n"
    chmod 444 shelf/image
    chmod 555 shelf
    (cd shelf && "${reader[@]}" ./cdpatch apply image script another) > log 2> errors
    status=$?
    judge 'an output in a directory that may only be read' ended 2 "$no_output\n"
fi

# A limit on file sizes emulates a disk with this much room.
(
    trap '' XFSZ
    ulimit -f 4
    run apply image script out
    exit "$status"
)
status=$?
judge 'a full disk' ended 2 "${applied}$write_failed\n"
judge 'the output has what the full disk took' test "$(stat -c %s out)" = 4096
judge 'output before a full disk' within out patched
rm -f out

"$program" apply image script out > /dev/full 2> errors
status=$?
: > log
judge 'a full device as standard output' ended 2 ''
judge 'the output, with a full device for the log' cmp -s out patched
rm -f out

"$program" list image > /dev/full 2> errors
status=$?
judge 'a listing to a full device' ended 2 ''

# ends_a_line: whether the last byte of `log` is a line feed.
ends_a_line() { [ "$(tail -c 1 log | od -An -tx1)" = ' 0a' ]; }

run --help
judge 'help has status 0' test "$status" = 0
judge 'help has a text, only on standard output' eval 'grep -q Usage log && ends_a_line && [ ! -s errors ]'
# helps PART WORD..: judges the help of a command, which contains this part.
helps() {
    run "${@:2}"
    judge "help: ${*:2}" eval '[ "$status" = 0 ] && grep -q "Usage: cdpatch" log && ends_a_line && [ ! -s errors ]'
    judge "and prints $1" grep -q -- "$1" log
}
helps 'at most 449849' list --help
helps 'at most 449849' audit image -h
helps 'With --carry, patches on damaged sectors' check --help
helps 'With --carry, patches on damaged sectors' apply image --help script out
"$program" --help > /dev/full 2> errors
judge 'help to a full device has status 2' test $? = 2

# refused WORD..: judges arguments that the parser refuses. Its text is only on standard output, and no file is created.
refused() {
    run "$@"
    judge "refused: $*" told_by_parser
}
told_by_parser() {
    [ "$status" = 2 ] && grep -q '^error: ' log && ends_a_line && [ ! -s errors ] && [ ! -e out ]
}
# explains PART WORD..: the same, and the text contains this part.
explains() {
    refused "${@:2}"
    judge "and prints $1" grep -q -- "$1" log
}
explains "Usage: cdpatch" apply image script
refused apply image script out more
refused apply image script out --base 5 --carry more
refused apply --base 5 --carry -- image script out more
refused check image
refused check image script more
refused list image image
refused list
explains "Usage: cdpatch" audit
refused audit --base
refused nothing
refused --nothing
refused ''
refused -- list image
refused --version
refused apply image script out --base 449850
explains 449850 list image --base 449850
refused apply image script out --base -1
refused apply image script out --base 0 --base 0
# flags_of COMMAND: prints the flags in its help.
flags_of() {
    "$program" "$1" --help | sed -nE 's/^ +(--[a-z-]+)  .*/\1/p'
}
judge 'check and apply have the same flags' eval '[ -n "$(flags_of check)" ] && [ "$(flags_of check)" = "$(flags_of apply)" ]'
judge 'list and audit have none' test -z "$(flags_of list)$(flags_of audit)"
for flag in $(flags_of check); do
    refused list image "$flag"
    refused audit image "$flag"
    refused check image script "$flag" "$flag"
    refused check image script "$flag=true"
done
refused list image --base x
refused Apply image script out
refused help
run list $'\xff'
judge 'a word that is no text' ended 2 "$no_text\n"
run list image --base 449849
judge 'the largest base' ended 0 '449849-449851 mode1\nsectors 3 tail 0\n'
cp image ./--base
run list -- --base
judge 'a file whose name begins with hyphens' ended 0 '0-2 mode1\nsectors 3 tail 0\n'
rm ./--base
run audit --base 1 image
judge 'an option before the image' ended 1 '1 address\n2 address\n3 address\nsectors 3 mode1 3 damaged 0 tail 0\n'
run check image --base=2 --carry script
judge 'options between other arguments' ended_without_output 1 'line 2: refused: no block 1\napplied 0 refused 1\n'

# With a closed standard stream, no message is written to a file.
for closed in 0 1 2 01 02 12 012; do
    rm -f out
    : > log
    : > errors
    case $closed in
        0) "$program" apply image script out <&- > log 2> errors ;;
        1) "$program" apply image script out >&- 2> errors ;;
        2) "$program" apply image script out > log 2>&- ;;
        01) "$program" apply image script out <&- >&- 2> errors ;;
        02) "$program" apply image script out <&- > log 2>&- ;;
        12) "$program" apply image script out >&- 2>&- ;;
        012) "$program" apply image script out <&- >&- 2>&- ;;
    esac
    status=$?
    case $closed in
        *1*) judge "status, closed $closed" ended 2 '' ;;
        *) judge "status, closed $closed" ended 0 "$applied" ;;
    esac
    judge "the output, closed $closed" cmp -s out patched
done
rm -f out

"$program" apply - script out <&- > log 2> errors
status=$?
judge 'the standard input closed' ended 2 "$read_failed\n"
judge 'no output of that' test ! -s out
rm -f out

# A pipe whose reader has ended, which it reports first.
mkfifo gone
{
    read -r _ < gone
    "$program" apply image script out 2> errors
    echo $? > pipe_status
} | {
    exec <&-
    echo gone > gone
}
: > log
status=$(cat pipe_status)
judge 'a closed pipe' ended 2 ''
judge 'the output, with a closed pipe for the log' cmp -s out patched
rm -f out

finish
