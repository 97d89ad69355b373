# Checks the sources: nothing that docs/TRUST.md excludes, no complaint of shellcheck, and no page that names a missing crate or file.

enter sources

# The crates have no unsafe code and no code in other languages.
foreign=$(grep -rnwE --include='*.rt' --exclude-dir=out 'unsafe|extern' "$top/crates" |
    grep -vE '^[^:]*/cd_c(_[a-z]*)?/src/[a-z_]*\.rt:[0-9]*:(#\[unsafe\(no_mangle\)\]$|pub extern "C" fn cdpatch_[a-z0-9_]*\()' |
    grep -vE '^[^:]*/cd_c/src/state\.rt:[0-9]*: *unsafe \{ ptr::read\(&raw const [a-z]* as \*const [A-Za-z0-9]*\) \}$')
judge 'no unsafe code and no functions of C in the crates, but exports, and the state of a digest' test -z "$foreign"

# No contract of an export has a condition, which a caller in C would have to meet.
conditions() {
    awk '/^pub extern "C" fn / { export = 1 } /^\{/ { export = 0 } export && /^ *requires / { print FILENAME ": " $0 }' "$@"
}
judge 'no export has a condition' test -z "$(conditions "$top"/crates/cd_c*/src/*.rt)"

judge 'no axiom and no hole in the crates' \
    test -z "$(grep -rnE --include='*.antt' --exclude-dir=out '(^|[^-A-Za-z_])axiom([^-A-Za-z_]|$)|[=(] *\?' "$top/crates")"
judge 'no file of C in the crates' test -z "$(find "$top/crates" -name out -prune -o -name '*.[chS]' -print)"
judge 'no check that lets holes pass' test -z "$(grep -rn --include='run' --include='*.sh' --include=Makefile allow-holes "$top/.ci" "$top/tests" \
    "$top/Makefile" | grep -v sources.sh)"

# No page and no crate names a crate or a file that does not exist.
sed -nE 's/^([a-z_]+)( staticlib)?:.*/\1/p' "$top/crates.txt" | sort - <(echo cd_bench) > all_crates
mapfile -d '' -t texts < <(find "$top" \( -name out -o -name .git \) -prune -o \( -name '*.md' -o -name '*.rt' \) -print0)
gone=$(grep -ohwE 'cdpatch|cd_[a-z_]*[a-z]' "${texts[@]}" | sort -u | comm -13 all_crates - | paste -sd ' ')
judge "no page and no crate names a crate that is not there: $gone" test -z "$gone"
# The changelog may name removed files. `make` creates the program of bench/ and each out/.
gone=$(grep -oHE '(^|[^][A-Za-z0-9_./@-])(crates|tests|tools|web|docs|python|include|man|examples|bench|\.ci)/[A-Za-z0-9_./*-]*[A-Za-z0-9_*]' "${texts[@]}" |
    grep -vE '^[^:]*/CHANGELOG\.md:|/cd_bench$|/out$' | sed -E 's,:[^a-z.],:,' | sort -u | while IFS=: read -r page path; do
        compgen -G "$top/${path//NAME/*}" > /dev/null || echo "${page#"$top/"} $path"
    done)
judge "no page and no crate names a file that is not there: $(head -n 3 <<< "$gone" | paste -sd ';')" test -z "$gone"

# Each script of the sources, by its name or its first line. Scripts without a first line are sourced by bash.
while IFS= read -r -d '' file; do
    case $file in
        *.sh | *.bash) echo "$file" ;;
        *) head -c 64 "$top/$file" | tr -d '\0' | grep -qE -m 1 '^#!.*(bash|/sh)$' && echo "$file" ;;
    esac
done < <(cd "$top" && find . \( -name out -o -name .git -o -path ./library -o -path ./dist -o -path ./cdscript \) -prune -o -type f \
    ! -name '*.rt' ! -name '*.antt' ! -name '*.edit' ! -name '*.patch' -print0) > scripts
judge 'there are scripts to read' test -s scripts
if ! missing shellcheck shellcheck 'the scripts as shellcheck reads them'; then
    (cd "$top" && xargs -d '\n' -n 8 -P "$(nproc)" shellcheck -s bash -f gcc < "$scratch/sources/scripts") > found 2>&1
    judge 'shellcheck has no word on the scripts' test ! -s found
    head -n 20 found
fi
