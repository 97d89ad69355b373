# Runs the examples of the README, two man pages, and the pages in docs/ as a reader pastes them: here, and from an unpacked tarball.

# transcript_step NAME COMMAND: runs one command of a transcript, and compares its output with that in the transcript. Any SHA-1 matches, since
# an image has the dates of its files.
transcript_step() {
    local name=$1 command=$2
    PATH=$scratch/plain:$PATH $plain -c "$command" > got 2>&1 < /dev/null
    sed -i -E 's/\b[0-9a-f]{40}\b/SHA-1/' wanted got
    same "$name: $command" wanted got
}

# transcript NAME: runs the transcript on the standard input: lines '$ COMMAND', each followed by its output.
transcript() {
    local name=$1 line command='' steps=0
    : > wanted
    while IFS= read -r line <&3; do
        if [[ $line == '$ '* ]]; then
            [ -n "$command" ] && transcript_step "$name" "$command"
            command=${line#'$ '}
            steps=$((steps + 1))
            : > wanted
        else
            printf '%s\n' "$line" >> wanted
        fi
    done 3<&0
    [ -n "$command" ] && transcript_step "$name" "$command"
    judge "$name has steps" [ "$steps" -gt 0 ]
}

# blocks_of PAGE: writes the fenced blocks of a page to NUMBER.sh, and the expected output of each to NUMBER.wanted: the block of text after
# it, or nothing. The commands that a block needs, as in '```sh pv', go to NUMBER.needs. The block '```sh first', which makes the files that
# the others use, gets the number 000, wherever it is on the page. Prints the number of blocks.
blocks_of() {
    awk '
        /^```sh/ { blocks++; number = sub(/^```sh first/, "```sh") ? 0 : blocks; file = sprintf("%03d.sh", number); printf "" > file
            printf "" > sprintf("%03d.wanted", number)
            if (sub(/^```sh /, "")) print > sprintf("%03d.needs", number)
            next }
        /^```text/ { file = sprintf("%03d.wanted", number); next }
        /^```/ { file = ""; next }
        file != "" { print > file }
        END { print blocks + 0 }' "$1"
}

# packaged COMMAND: prints the Debian package of a command.
packaged() {
    case $1 in
        chdman) echo mame-tools ;;
        node) echo nodejs ;;
        *) echo "$1" ;;
    esac
}

# data_disc: creates a disc as a reader of the README has one: block 16 begins with a volume descriptor according to ISO 9660.
data_disc() {
    local n
    for ((n = 0; n < 17; n++)); do
        printf '\000\377\377\377\377\377\377\377\377\377\377\000\000\002\000\001'
        head -c 2336 /dev/zero
    done > blank
    {
        echo 'cdpatch 2'
        for ((n = 0; n < 17; n++)); do printf 'rebuild %d\naddress %d 00:02:%02d\n' $n $n $n; done
        echo 'set 16 0 01434430303101'
    } > format
    cdpatch apply blank format disc.bin > /dev/null
    rm blank format
}

# page NAME PAGE: runs the blocks of a page in one shell, in a new directory, and compares the output of each. A reader of the sources'
# README has a checkout with a proved program; a reader of the tarball's README has a disc.
page() {
    local name=$1 block needs command commands
    local -A lacking=()
    mkdir "$scratch/$name"
    cd "$scratch/$name" || exit 1
    case $name in
        sources-readme)
            ln -s "$top"/{crates,tools,Makefile,install.mk,CHANGELOG.md,man,python} "$program" .
            printf '#!/bin/sh\nexec %s --no-print-directory -o program "$@"\n' "$(command -v make)" > "$scratch/plain/make"
            chmod +x "$scratch/plain/make"
            ;;
        *-readme) data_disc ;;
    esac
    mkdir blocks
    cd blocks || exit 1
    judge "$name has blocks" test "$(blocks_of "$2")" -gt 0
    for needs in *.needs; do
        [ -e "$needs" ] || continue
        read -ra commands < "$needs"
        for command in "${commands[@]}"; do
            command -v "$command" > /dev/null && continue
            lacking[$command]+=" ${needs%.needs}"
            rm -f "${needs%.needs}.sh"
        done
    done
    for command in "${!lacking[@]}"; do
        missing "$command" "$(packaged "$command")" "$name, blocks${lacking[$command]}"
    done
    [ -n "$(compgen -G '*.sh')" ] || return
    cd ..
    for block in blocks/*.sh; do
        echo ". '$PWD/$block' > '$PWD/${block%.sh}.got' 2> '$PWD/${block%.sh}.errors'"
    done > whole
    PATH=$scratch/plain:$PATH $plain -u whole < /dev/null
    for block in blocks/*.sh; do
        block=${block%.sh}
        # Other programs may report their progress on standard error.
        [ -e "$block.needs" ] || cat "$block.errors" >> "$block.got"
        same "$name, block ${block#blocks/}: $(head -n 1 "$block.sh")" "$block.wanted" "$block.got"
    done
}

# manual NAME PAGE MAKER..: runs the examples of a man page in a new directory, where MAKER creates the images.
manual() {
    mkdir "$scratch/$1"
    cd "$scratch/$1" || exit 1
    "${@:3}"
    sed -n '/^\.Bd -literal/,/^\.Ed/{/^\./!p}' "$2" | sed 's/\\e/\\/g' > example
    transcript "the man page of $1" < example
}

# pages NAME DIRECTORY MANUALS EXAMPLES: runs all user pages of a directory, and the man pages of another with the images of a third. Only the
# gate runs the guides of the sources, since those of the tarball are the same.
pages() {
    local name maker
    page "$1-readme" "$2/README.md"
    [ "$1" = tarball ] || [ -n "${GATE-}" ] || return 0
    for name in SCRIPTS TRANSLATE-CLI REPAIR COLLECTION FAQ; do
        page "$1-$name" "$2/docs/$name.md"
    done
    manual "$1-cdpatch" "$3/cdpatch.1" data_disc
    for name in node genisoimage jq; do
        ! missing "$name" "$(packaged "$name")" 'the examples of cdscript(1)' || return 0
    done
    # The page names the command that makes the images. That of the sources names the place where it will be installed.
    maker=$(sed -n 's/^\.Dl \(sh .*\/small_images\.sh\)$/\1/p' "$3/cdscript.1")
    manual "$1-cdscript" "$3/cdscript.1" sh -c "${maker/\/usr\/local\/share\/doc\/cdpatch\/examples/$4}"
}

pages sources "$top" "$top/man" "$top/examples"
judge 'make try can be run again' eval "$scratch/plain/make -s -C $scratch/sources-readme try > again" && rm -f "$scratch/plain/make"

# The image and the scripts of bench/SPEED.md at a hundredth of their length, and the commands in its table.
sed -e 's/330000/3300/g' -e 's/329999/3299/' -e 's/327670/3270/' "$top/bench/SPEED.md" > "$scratch/short_speed"
page speed "$scratch/short_speed"
if [ -e long.bin ]; then
    judge 'its image is sound' test "$(cdpatch audit long.bin)" = 'sectors 3300 mode1 3300 damaged 0 tail 0'
    while IFS= read -r command <&3; do
        rm -f out
        $plain -c "$command" > log 2>&1
        judge "bench/SPEED.md: $command" test $? = 0
    done 3< <(sed -n 's/^| `\([^`]*\)`.*/\1/p' "$top/bench/SPEED.md")
fi

# The tarball, unpacked in an empty directory and installed, with nothing else of the project on the path.
mkdir "$scratch/from_tarball"
cd "$scratch/from_tarball" || exit 1
packed
tar -xzf "$scratch"/packed/made/*-linux.tar.gz
make --no-print-directory -s -C cdpatch-*-linux > said
judge 'make in the tarball installs nothing' test "$(cat said)" = 'Everything is built: make install installs it.'
make --no-print-directory -s -C cdpatch-*-linux install PREFIX="$PWD/prefix"
rm -r cdpatch-*-linux
installed=$PWD/prefix
path=$PATH
# The tools that the pages need, those that every system has, and the shell.
mkdir "$scratch/named"
for name in awk base64 bash cat cmp cp cut dash date dd diff dirname find grep gunzip gzip head iconv ls ln mkdir mktemp mv od rm sed sh \
    seq sha1sum sha256sum sort tail test touch tr uniq wc yes genisoimage jq node git perl; do
    ! command -v "$name" > /dev/null || ln -s "$(command -v "$name")" "$scratch/named/$name"
done
PATH=$installed/bin:$scratch/named
judge 'the program is the installed one' test "$(command -v cdpatch)" = "$installed/bin/cdpatch"
pages tarball "$installed/share/doc/cdpatch" "$installed/share/man/man1" "$installed/share/doc/cdpatch/examples"
# The README's patch fits any disc with ISO 9660, and no others.
cd "$scratch/tarball-readme" || exit 1
made='../tarball-TRANSLATE-CLI/Game (Track 1).bin'
[ ! -e "$made" ] || judge 'the patch of the README is right for a disc of genisoimage' cdpatch check "$made" changes > log
cdpatch check "$top/crates/cd_low_tests/data/cdrkit-8.bin" changes > log
judge 'and refused on a short image' test "$(head -n 1 log)" = 'line 2: refused: no block 16'
cdpatch check new.bin changes > log
judge 'and where it was applied' test "$(head -n 1 log)" = 'line 2: refused: old bytes differ at block 16 offset 1395'
PATH=$path
# The installed pages name no command and no file that only the sources have.
cd "$installed/share/doc/cdpatch" || exit 1
grep -nE 'crates/cd_low_tests/data|make (check|test|dist)|^ *make( |$)|sources -->' README.md \
    docs/{SCRIPTS,TRANSLATE,TRANSLATE-CLI,REPAIR,COLLECTION,FAQ,INSTALL}.md > only
judge "the installed pages have only what works there: $(head -n 1 only)" test ! -s only
rm only
while IFS=: read -r page link <&3; do
    judge "installed $page: $link is there" test -e "$(dirname "$page")/$link"
done 3< <(grep -oE '\]\([^) ]*\)' README.md CHANGELOG.md docs/*.md | sed -e 's/](//' -e 's/)$//' -e '/:#/d' -e 's/#.*//' | grep -v ':http')
