# Tests the completions as a person types: lines with a TAB in the real bash, zsh, and fish, on a pseudo-terminal.

# The text typed before TAB, and the resulting line. If nothing follows the bar, the line stays as it is.
cat > "$scratch/typed" << 'END'
cdpatch au|cdpatch audit
cdpatch fr|
cdpatch --h|cdpatch --help
cdpatch --help au|
cdpatch list im|cdpatch list image
cdpatch list an|cdpatch list an\ image
cdpatch list image im|
cdpatch list --b|cdpatch list --base
cdpatch list --c|
cdpatch check --c|cdpatch check --carry
cdpatch check --carry --base 3 im|cdpatch check --carry --base 3 image
cdpatch list --base=3 im|cdpatch list --base=3 image
cdpatch list --base im|
cdpatch list -- im|cdpatch list -- image
cdpatch list -- --b|
cdpatch check -- image sc|cdpatch check -- image script
cdpatch check image sc|cdpatch check image script
cdpatch check image script fo|
cdpatch apply image script sc|
cdpatch apply image script im|
cdpatch apply image script fo|cdpatch apply image script folder/
cdpatch apply -- image script fo|cdpatch apply -- image script folder/
cdpatch apply -- image script sc|
cdpatch apply --carry image script fo|cdpatch apply --carry image script folder/
cdpatch audit - < im|cdpatch audit - < image
cdpatch list image > sc|cdpatch list image > script
cdpatch list image 2> sc|cdpatch list image 2> script
cdpatch check image > log sc|cdpatch check image > log script
cdpatch < im|cdpatch < image
cdpatch < image au|cdpatch < image audit
cdpatch list - im|
cdpatch list -d|
cdpatch list -- -d|cdpatch list -- -dash.bin
cdpatch list da|
cdpatch apply image script -d|
cdpatch apply -- image script -d|
END

cat > "$scratch/typed_cdscript" << 'END'
cdscript ap|cdscript apply
cdscript merge --d|cdscript merge --dat
cdscript find image text --encoding CP9|cdscript find image text --encoding CP932
cdscript find image text -o fo|cdscript find image text -o folder/
cdscript scan image sc|cdscript scan image script
cdscript merge image image sc|cdscript merge image image script
cdscript raw image sc|
cdscript raw image fo|cdscript raw image folder/
cdscript extract image im|
cdscript diff --track 2 image im|cdscript diff --track 2 image image
cdscript replace-file image path sc|cdscript replace-file image path script
END

# in_terminal SHELL FILE TYPED: types the lines into the shell, and compares the resulting lines.
in_terminal() {
    local shell=$1 typed wanted got name=$1_${2##*/}
    mkdir "$scratch/typing_$name"
    cd "$scratch/typing_$name" || exit 1
    mkdir folder "../load_$name"
    touch image 'an image' script ./-dash.bin
    cp "$2" "../load_$name/"
    sed 's/|.*//' "../$3" > lines
    python3 "$top/tests/pages/terminals.py" "$shell" "$scratch/load_$name/${2##*/}" < lines > ../became 2> ../errors
    judge "$shell answers on a terminal: $(tail -n 1 ../errors)" test $? = 0
    while IFS='|' read -r typed wanted <&3 && IFS= read -r got <&4; do
        # A shell may append a space or, to an option with an argument, `=`.
        got=${got%"${got##*[! ]}"}
        [[ $wanted == *--base || $wanted == *--dat ]] && got=${got%=}
        judge "$shell on a terminal: '$typed' becomes '${wanted:-$typed}', not '$got'" test "$got" = "${wanted:-$typed}"
    done 3< "../$3" 4< ../became
    judge "$shell was asked all" test "$(wc -l < ../became)" = "$(wc -l < lines)"
}

for made in "${programs[@]}"; do
    name=${made##*/} lines=typed
    [ "$name" = cdpatch ] || lines=typed_$name
    in_terminal bash "$completions/$name.bash" "$lines"
    missing zsh zsh 'the completion for zsh' || in_terminal zsh "$completions/_$name" "$lines"
    missing fish fish 'the completion for fish on a terminal' || in_terminal fish "$completions/$name.fish" "$lines"
done
