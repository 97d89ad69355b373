# Produces each message of the man page by the cause that the page gives, and checks that the page has each message of the program.

enter messages
printf 'cdpatch 1\nset 1 16 48454C4C4F\n' > script
printf '\357\273\277cdpatch 1\n' > byte_order_mark
printf 'cdpatch 1\r# a comment\r' > carriage_returns
printf 'cdpatch 1\n' | sed 's/./&\x0/g' > utf_16
: > produced

# produces WANTED STATUS COMMAND..: judges the status and the last line that a command prints; for an error of the parser, its first line.
produces() {
    local wanted=$1 status=$2 line got
    shift 2
    "$@" > log 2>&1 < /dev/null
    got=$?
    line=$(tail -n 1 log)
    [[ $line == 'applied '* && $wanted != 'applied '* ]] && line=$(head -n 1 log)
    [[ $wanted == error:* ]] && line=$(head -n 1 log | cut -c 1-6)
    echo "$line" >> produced
    judge "$* prints '$wanted', not '$line'" test "$line" = "$wanted"
    judge "$* has status $status, not $got" test "$got" = "$status"
}

# patch LINE: writes a script whose third line is this one.
patch() {
    printf '%s\n' 'cdpatch 1' '# the third line' "$1" > ./patch
}

# decides WANTED STATUS LINE [IMAGE [ARGUMENT..]]: judges the output of `check` for a script with this line.
decides() {
    patch "$3"
    produces "$1" "$2" cdpatch check "${@:5}" "${4-long.bin}" patch
}

cat disc.bin disc.bin > long.bin
decides 'line 3: applied' 0 'set 9 0 41'
decides 'applied 1 refused 0' 0 'set 9 0 41'
decides 'line 3: refused: no block 9' 1 'set 9 0 41' disc.bin
decides 'line 3: refused: no block 9' 1 'set 9 0 41' long.bin --base 12
{ head -c 21168 long.bin; printf '\001'; tail -c +21170 long.bin; } > no_sync.bin
decides 'line 3: refused: block 9 is not mode 1' 1 'set 9 0 41' no_sync.bin
{ head -c 21183 long.bin; printf '\002'; tail -c +21185 long.bin; } > mode_2.bin
decides 'line 3: refused: block 9 is not mode 1' 1 'rebuild 9' mode_2.bin
{ head -c 21200 long.bin; printf '\377'; tail -c +21202 long.bin; } > damaged.bin
decides 'line 3: refused: block 9 is damaged' 1 'set 9 0 41' damaged.bin
decides 'line 3: applied' 0 'set 9 0 41' damaged.bin --carry
decides 'line 3: refused: old bytes differ at block 9 offset 16' 1 'set 9 16 00 was 01'

# Images that are not raw.
tail -c +17 disc.bin | head -c 16352 > iso
decides 'line 3: refused: block 1 is not mode 1' 1 'set 1 0 41' iso
for ((n = 0; n < 8; n++)); do
    tail -c +$((2352 * n + 1)) disc.bin | head -c 2352
    head -c 96 /dev/zero
done > subchannel
for _ in 1 2 3 4 5 6 7; do cat subchannel; done > subchannels
cdpatch list subchannels > log
judge 'sectors of 2448 bytes: every 51st looks like one' grep -qx '51-51 mode1' log
cdpatch audit subchannels > log
judge 'with the address of another' grep -qx '51 address' log
for ((n = 0; n < 8; n++)); do tail -c +$((2352 * n + 17)) disc.bin | head -c 2336; done > short_sectors
cdpatch audit short_sectors > log
judge 'sectors of 2336 bytes: none is of Mode 1' grep -q ' mode1 0 ' log

produces "script line 1: $no_head" 2 cdpatch check disc.bin disc.bin
produces "script line 1: $no_head" 2 cdpatch check disc.bin byte_order_mark
produces "script line 1: $no_head" 2 cdpatch check disc.bin carriage_returns
produces "script line 1: $no_head" 2 cdpatch check disc.bin utf_16
for line in 'cdpatch 9' 'CDPATCH 1' 'cdpatch 1.0' '// comment'; do
    echo "$line" > wrong
    produces "script line 1: $no_head" 2 cdpatch check disc.bin wrong
done
decides "script line 3: $unknown_verb" 2 'SET 1 0 41'
decides "script line 3: $unknown_verb" 2 'address 1 00:02:00'
decides "script line 3: $word_count" 2 'set 1 0 41 42 43'
decides "script line 3: $word_count" 2 'set 1 0 41 # a comment'
decides "script line 3: $word_count" 2 'set 1 0 41 WAS 00'
decides "script line 3: $bad_number" 2 'set 0x1A 0 41'
decides "script line 3: $bad_number" 2 'set 1A 0 41'
decides "script line 3: $bad_hex" 2 'set 1 0 0x41'
decides "script line 3: $bad_hex" 2 'set 1 0 "HELLO"'
decides "script line 3: $bad_offset" 2 'set 1 2352 41'
decides "script line 3: $bad_length" 2 'set 1 0 41 was 4142'
decides "script line 3: $bad_length" 2 "fill 1 0 $(($(limit 'bytes of a patch') + 1)) 00"
patch 'address 1 00:60:00'
sed -i '1s/1/2/' patch
produces "script line 3: $bad_address" 2 cdpatch check disc.bin patch
patches=$(limit 'patches of a script')
{ echo 'cdpatch 1'; yes 'rebuild 0' | head -n $((patches + 1)); } > many
produces "script line $((patches + 2)): more than $patches patches" 2 cdpatch check disc.bin many

produces "$no_image" 2 cdpatch list nothing
produces "$no_script" 2 cdpatch check disc.bin nothing
produces "$no_script" 2 cdpatch check disc.bin "$PWD"
truncate -s $(($(limit 'bytes of a script') + 1)) longest
produces "$long_script" 2 cdpatch check disc.bin longest
produces "$no_output" 2 cdpatch apply disc.bin script disc.bin
produces "$no_output" 2 cdpatch apply disc.bin script nowhere/out
produces "$read_failed" 2 cdpatch list "$PWD"
produces "$write_failed" 2 bash -c "trap '' XFSZ; ulimit -f 4; cdpatch apply disc.bin script out; exit \$?"
produces "$no_root" 2 bash -c 'exec <&-; ulimit -n 3; exec cdpatch list disc.bin'
truncate -s 2352000001 endless
produces "$long_image" 2 cdpatch list endless
rm longest endless
produces "$no_text" 2 cdpatch list $'\xe9.bin'
produces 'error:' 2 cdpatch frobnicate

# out_of_memory LINE COMMAND..: produces a line about missing memory with the first limit of address space that causes it.
out_of_memory() {
    local line=$1 room
    shift
    for ((room = 2000; room < 120000; room += room / 40)); do
        [ "$( (ulimit -v $room; "$@") 2> /dev/null | tail -n 1)" = "$line" ] && break
    done
    produces "$line" 2 bash -c 'ulimit -v $0; "$@"' $room "$@"
}
{ echo 'cdpatch 1'; yes "set 0 0 $(head -c 512 /dev/zero | tr '\0' 4)" | head -n 60000; } > large
out_of_memory "$no_memory" cdpatch list disc.bin
out_of_memory "$no_script_memory" cdpatch check disc.bin large
rm large

# Each message of the page was produced.
number() { sed 's/^script line [0-9N]*/script line N/'; }
{
    sed -n '/^\.Ss Invalid scripts/,/^\.Ss/s/^\.It Li /script line N: /p' "$top/man/cdpatch.1"
    sed -nE 's/^\.(It Li|Dl|Ql) ((line 3:|cdpatch:|script:|script line 3:|applied 1) .*)/\2/p; s/^\.Ql (error:).*/\1/p' \
        "$top/man/cdpatch.1" | sed 's/ :$//'
} | number > page
number < produced > numbered
judge 'the man page has messages' test -s page
while IFS= read -r message <&3; do
    judge "produced: $message" grep -qxF -- "$message" numbered
done 3< page

# Each message of the program is in the page.
{
    # In the program file nothing separates the text before a number from the next text.
    LC_ALL=C grep -aoE 'cdpatch: [a-zA-Z0-9 ]+' "$program" | sed -E 's/ than .*/ than /'
    sed -n 's/^ *ScriptFault::.* => "\(.*\)",$/\1/p' "$top/crates/cd_script/src/fault.rt" | grep -vx 'no memory'
} | sort -u > messages
judge 'there are messages to look for' test -s messages
while IFS= read -r message <&3; do
    whole=x
    [ "${message% }" = "$message" ] || whole=
    judge "the man page has: $message" grep "-qF$whole" -e ".It Li $message" "$top/man/cdpatch.1"
done 3< messages
