# Tests the offers of each completion, requested from bash by its function and from fish by `complete -C`. `terminals.sh` types into the
# shells.

mkdir "$scratch/completing"
cd "$scratch/completing" || exit 1
mkdir folder
touch image 'an image' script
commands='apply audit check list'
everything='an image folder image script'

# offers WANTED WORD..: judges the sorted offers for the last of these words.
offers() {
    local wanted=$1
    shift
    judge "$shell completes: $*" test "$(offered "$@" | sort | paste -sd ' ')" = "$wanted"
}

# options_of COMMAND [USED]: prints the options in its help, except one that is used already.
options_of() {
    cdpatch "$1" --help | sed -nE 's/^  (-.,|   ) (--[a-z-]+).*/\2/p' | grep -vxe "${2-}" | sort | paste -sd ' '
}

asked_at_each_position() {
    offers "$commands" ''
    offers 'apply audit' a
    offers '--help' --
    for command in list audit check apply; do
        offers "$everything" $command ''
        offers 'image' $command im
        offers '--base' $command --b
        offers '' $command --base ''
        offers "$everything" $command --base 3 ''
        offers "$everything" $command -- ''
        offers '' $command -- --
        offers "$(options_of $command)" $command --
        offers "$(options_of $command --base)" $command --base 3 --
        for flag in $(options_of $command); do
            [[ $flag = --base || $flag = --help ]] && continue
            offers "$(options_of $command "$flag")" $command "$flag" --
            offers "$everything" $command "$flag" ''
        done
    done
    for command in list audit; do
        offers '' $command image ''
        offers '' $command - ''
        offers '--base' $command image --b
    done
    offers "$everything" check image ''
    offers '' check image script ''
    offers "$everything" apply --base 3 image ''
    offers 'folder' apply image script ''
    offers '' apply image script out ''
    offers '' frobnicate ''
    # A name that begins with a dash would be an option, except after `--`.
    touch ./-dash.bin
    mkdir ./-dir
    for command in list audit check apply; do
        offers "$everything" $command ''
        offers '' $command -d
        offers "-dash.bin -dir $everything" $command -- ''
        offers '-dash.bin' $command -- -da
    done
    offers 'folder' apply image script ''
    offers '-dir folder' apply -- image script ''
    offers '-dir' apply -- image script -
    rm ./-dash.bin
    rmdir ./-dir
}

shell=bash
. "$completions/cdpatch.bash"
offered() {
    COMP_WORDS=(cdpatch "$@")
    COMP_CWORD=$#
    _cdpatch
    [ ${#COMPREPLY[@]} = 0 ] || printf '%s\n' "${COMPREPLY[@]}"
}
asked_at_each_position
offers '' list --base = ''
offers "$everything" list --base = 3 ''
offers '' --help ''
offers '--help' -
offers "$(options_of list)" list -
offers "$(options_of check)" check -
offers "$(options_of apply)" apply image -
for operator in '<' '>' '>>' '<<<'; do
    offers 'image' list image "$operator" im
    offers "$everything" $operator ''
    offers 'apply audit' $operator image a
    offers 'script' check $operator log image s
    offers 'folder' apply $operator log image script fo
    offers '' list image $operator log ''
done
offers 'image' list image 2 '>' im
offers 'folder' apply image script 2 '>' log fo
touch ./-dash
offers '-dash' list image '>' -d
rm ./-dash
touch $'words\n--help'
offers '' list wo
offers "$everything" list ''
rm $'words\n--help'
judge 'bash knows the completion' test "$(complete -p cdpatch)" = 'complete -F _cdpatch cdpatch'

# offered_by_fish PROGRAM WORD..: prints the offers of fish for the last of these words.
offered_by_fish() {
    fish --no-config -c 'source $argv[1]; complete -C (string join " " -- $argv[2] (string escape -- $argv[3..-2]) $argv[-1])' \
        "$completions/$1.fish" "$@" | sed -e 's/\t.*//' -e 's/\/$//' -e '/^-[hV]$/d' -e '/^$/d'
}
if ! missing fish fish 'the completion for fish'; then
    shell=fish
    offered() { offered_by_fish cdpatch "$@"; }
    asked_at_each_position
fi

# Tests the completions of cdscript: jobs, options, repeated options, values, and names that are files.
asked_of_cdscript() {
    offers "$(jobs_of_cdscript | sort | paste -sd ' ')" ''
    offers '--forms --help --notices --version' --
    for job in info replace replace-file diff merge raw; do
        offers "$(help_of $job | sed -nE 's/^ +(-.,)? ?(--[a-z-]+) .*/\2/p' | sort | paste -sd ' ')" $job --
    done
    offers '--dat' merge --dat image --d
    offers '' find --track 2 --tr
    offers 'CP932' find image text --encoding CP9
    offers 'image' scan --dat im
    offers 'folder' find image text -o fo
    offers "$everything" merge image image ''
    offers "$everything" scan image folder script ''
    offers 'folder' raw image ''
    offers '' extract image ''
    offers 'folder' extract image path ''
    offers '' replace image ''
    offers "$everything" replace-file image path ''
    offers "$everything" diff --track 2 image ''
}
shell='bash, cdscript'
. "$completions/cdscript.bash"
offered() {
    COMP_WORDS=(cdscript "$@") COMP_CWORD=$#
    _cdscript
    [ ${#COMPREPLY[@]} = 0 ] || printf '%s\n' "${COMPREPLY[@]}"
}
asked_of_cdscript
if command -v fish > /dev/null; then
    shell='fish, cdscript'
    offered() { offered_by_fish cdscript "$@"; }
    asked_of_cdscript
fi
