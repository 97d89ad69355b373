# Tests help, and what is generated from it: parts of the man pages, and completions.

enter help
cdpatch --help > help
cdpatch -h > short
judge 'both forms of help are one' cmp -s help short
sed -n '/^    cdpatch 1$/,/^    rebuild /s/^    //p' help > example
cdpatch check disc.bin example > log
judge 'the script in help is accepted' test "$(tail -n 1 log)" = 'applied 4 refused 0'
for command in list audit check apply; do
    cdpatch $command --help > "$command.help"
    judge "help lists $command as its own help begins" grep -q "^  $command  *$(head -n 1 "$command.help")$" help
    judge "help of $command has the statuses" grep -q '^Status: 0 ' "$command.help"
done
judge 'help is at most 80 columns wide' test -z "$(awk 'length > 80' help list.help audit.help check.help apply.help)"
for word in --version -V; do
    cdpatch $word > log 2>&1
    judge "$word is refused" test $? = 2
done

# The parts that repeat help are up to date for this program and this cdscript; pages for a different program are detected.
check() { python3 -B "${3-$top}/tools/options.py" "$1" "$2"; }
for made in "${programs[@]}"; do
    name=${made##*/}
    check check "$made" > said
    judge "the pages are as tools/options.py makes them of $name: $(cat said)" test $? = 0 -a ! -s said
done

judge 'no file says another sentence than docs/TRUST.md on what is proved of a part' python3 -B "$top/tools/trust.py" check

# A program with one more option and one more command: the current pages are refused, and regenerated pages have both.
cat > wider << 'END'
#!/usr/bin/env bash
cdpatch "${@/repair/apply}" | sed -e 's/^  -h, --help .*/      --another   Print nothing\n&/' \
    -e 's/^  apply .*/&\n  repair  Repair an image/' -e "s/^Usage: cdpatch apply/Usage: cdpatch ${1/--help/apply}/"
END
chmod +x wider
mkdir -p another/tools
cp -r "$top/man" another
cp -r "$top/tools/options.py" "$top/tools/completions" another/tools
judge 'pages of another program are refused' eval '! check check ./wider another > said'
judge 'by name' cmp -s said <(printf '%s is not as tools/options.py makes it of cdpatch --help\n' man/cdpatch.1)
judge 'and made' eval 'check pages ./wider another && check check ./wider another'
judge 'with the new option, and what help says of it' \
    test "$(grep -A 1 '^\.It Fl Fl another$' another/man/cdpatch.1 | tail -n 1)" = 'Print nothing.'
judge 'with the new command' grep -q '^\.It Cm repair ' another/man/cdpatch.1
judge 'and all prose as it was' test -z "$(diff "$top/man/cdpatch.1" another/man/cdpatch.1 | grep '^<')"
if ! missing mandoc mandoc 'the form of a made man page'; then
    mandoc -T lint another/man/cdpatch.1 2> /dev/null | grep -vE 'STYLE: (referenced manual not found|operating system explicitly specified)' > linted
    judge 'mandoc has no word on it' test ! -s linted
fi
python3 -B "$top/tools/options.py" completions wide ./wider
for name in cdpatch.bash _cdpatch cdpatch.fish; do
    judge "$name has both" eval "grep -q 'repair' wide/$name && grep -q 'another' wide/$name"
done

# The man page explains each encoding that help of cdscript lists.
while read -r name; do
    judge "the man page of cdscript explains $name" grep -qE "^\\.Cm $name( |\$)" "$top/man/cdscript.1"
done < <(help_of find | sed -n '/--encoding/,/--table/p' | paste -sd ' ' | sed 's/.*the encoding of text: //; s/ *--table.*//' |
    tr -s ', ' '\n')
for job in $(jobs_of_cdscript) help; do
    judge "help of cdscript $job is at most 80 columns wide" test -z "$(help_of "$job" | awk 'length > 80')"
done
