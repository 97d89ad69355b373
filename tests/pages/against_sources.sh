# Compares the pages with the sources: the output of tools/pages.py, links, named files, and the functions that the program is linked to.

enter pages

# The descriptions in the sources. A file or a call without one is refused.
for page in map contracts audit; do
    judge "make $page prints a page" eval 'python3 -B "$top/tools/pages.py" $page > $page && grep -q "^| " $page'
done
grep -oE '^## cd[a-z_]*' contracts | sed 's/## //' | sort > got
printf '%s\n' "${library_crates[@]}" "${static_crates[@]}" | sort > wanted
same 'make contracts has each crate with contracts' wanted got
sed -n 's/^[a-z].* \(cdpatch_[a-z0-9_]*\)(.*/\1/p' "$top/include/cdpatch.h" | sort > wanted
grep -oE '^\| `cdpatch_[a-z0-9_]*`' contracts | grep -oE 'cdpatch_[a-z0-9_]*' | sort > got
same 'make contracts has each call of the header' wanted got
cat "$top"/crates/*/src/laws.rt | sed -nE 's/^pub fn ([a-z_0-9]+).*/\1/p' | sort -u > wanted
grep -oE '^\| `[a-z_0-9]+`' contracts | tr -d '|` ' | sort -u > got
judge "make contracts has each law, and not only some: $(comm -23 wanted got | paste -sd ' ')" test -z "$(comm -23 wanted got)"

# Finds, in a different way, every definition that a clause or a condition of a crate's public functions cites: none may be left out.
declared() {
    cat "$top/crates/$1"/specs/*.antt 2> /dev/null |
        sed -nE 's/^ *(abbrev pub|unfoldable pub|pub record|pub data) +([A-Za-z_]+).*/\2/p' | sort -u
}
cited() {
    sources "$1" | xargs awk '
        /^ *pub (extern "C" )?fn / { public = 1 }
        /^ *(pub\(crate\) |pub\(super\) )?fn / { public = 0 }
        /^ *\{/ || /^\{/ { clause = 0; public = 0 }
        /^ *(requires|ensures) / { clause = 1 }
        public && clause { print }' | grep -oE '[A-Za-z_]+' | sort -u
}
for crate in "${library_crates[@]}" "${static_crates[@]}"; do
    awk -v crate="$crate" '/^## / { inside = $2 == crate } inside' contracts |
        sed -nE 's/^\| `([A-Za-z_]+)` \| `[A-Za-z]+` \|.*/\1/p' | sort -u > shown
    left_out=$(comm -12 <(declared "$crate") <(cited "$crate") | comm -23 - shown | paste -sd ' ')
    judge "make contracts has what contracts of $crate cite: ${left_out:-all}" test -z "$left_out"
done
for file in cd_sector/specs/Kind.antt cd_sector/src/encoding.rt; do
    says=$(sed -nE '1s,^(--|//!?) (([^ ]+ ){2}[^ .]+).*,\2,p' "$top/crates/$file")
    judge "make map has what ${file#*/} says of itself" grep -qF "| \`${file#*/}\` | ${says:-nothing} " map
done
judge 'make audit has each file after those that it names' test "$(grep -n 'cd_sector/specs/Consistent.antt' audit | cut -d : -f 1)" -gt \
    "$(grep -n 'cd_sector/specs/Defect.antt' audit | cut -d : -f 1)"
# Directories above the sources may have any name.
mkdir tests
(cd "$top" && find crates -name out -prune -o \( -name '*.rt' -o -name '*.antt' \) -print0 | xargs -0 cp -r --parents -t "$OLDPWD/tests" &&
    cp -r --parents crates.txt tools web tests targets bench examples include python "$OLDPWD/tests")
sed -i '/^ *\/\/[/!]/d' tests/crates/cd_sector/src/encoding.rt
for page in map contracts; do
    judge "make $page refuses a file, or a call, that says nothing" eval '! python3 -B tests/tools/pages.py $page > said 2>&1'
    judge 'and names it' grep -q 'cd_sector.*enco' said
done

make --no-print-directory -s -C "$top" help > printed
for goal in $(sed -n 's/^\.PHONY: all /all /p' "$top/Makefile") dist release; do
    judge "make help prints what make $goal does" grep -qE "^  make $goal +[a-z]" printed
done

# The links of the pages lead to existing files and headings.
heading() { tr '[:upper:]' '[:lower:]' <<< "$1" | sed -e 's/[^a-z0-9 -]//g' -e 's/ /-/g'; }
while IFS=: read -r page link <&3; do
    file=${link%%#*}
    target=$(dirname "$top/$page")/$file
    [ -n "$file" ] || target=$top/$page
    judge "$page: $link is there" test -e "$target"
    [[ $link != *'#'* ]] && continue
    found=false
    while IFS= read -r title; do
        [ "$(heading "$title")" = "${link#*#}" ] && found=true
    done < <(sed -n 's/^##* //p' "$target")
    judge "$page: $link is a heading" $found
done 3< <(cd "$top" && grep -oE '\]\([^) ]*\)' README.md CONTRIBUTING.md SECURITY.md CHANGELOG.md docs/*.md | sed -e 's/](//' -e 's/)$//' | grep -v ':http')

# A bullet that has only a comment is drawn empty.
empty=$(cd "$top" && grep -nE '^ *-( <!--[^>]*-->)?$' README.md CONTRIBUTING.md SECURITY.md CHANGELOG.md docs/*.md | paste -sd ';')
judge "no bullet is empty: ${empty:-none}" test -z "$empty"

# The contract in docs/CONTRACTS.md is that of the sources.
sed -n 's/^    //p' "$top/docs/CONTRACTS.md" | sed 's/^ *//' > example
sed 's/^ *//' "$top/crates/cd_sector/src/encoding.rt" | grep -xFf - example | cmp -s - example
judge 'the contract that docs/CONTRACTS.md shows is that of encode' test $? = 0 -a -s example

# docs/CONTRACTS.md explains only clauses of `apply` that exist, and parts of its clause `plain`.
{
    sed -n '/^pub fn apply</,/^{/s/^ *ensures \([a-z_]*\) .*/\1/p' "$top/crates/cd_image/src/applying.rt"
    sed -n '/^pub record AppliesPlainly /,/^$/s/^  pub \([a-z_]*\) : .*/\1/p' "$top/crates/cd_image/specs/Applying.antt"
} | sort > clauses
sed -n '/^| Clause | In words/,/^$/s/^| \(`[^|]*`\) | .*/\1/p' "$top/docs/CONTRACTS.md" | grep -o '[a-z_]*' | sort > rows
gone=$(comm -23 rows clauses | paste -sd ' ')
judge "each clause of apply that docs/CONTRACTS.md explains is there: ${gone:-all}" test -s rows -a -z "$gone"

# The program calls only functions that docs/TRUST.md lists.
if ! missing nm binutils 'what the program is linked to'; then
    nm -D --undefined-only "$program" | sed -e 's/.* //' -e 's/@.*//' | sort > linked
    sed -nE '/^\| (Functions|Names) \| (Trusted|What) for/,/^$/s/^\| (`[^|]*`) \| .*/\1/p' "$top/docs/TRUST.md" |
        grep -o '`[A-Za-z_0-9]*`' | tr -d '`' | sort > known
    unknown=$(comm -23 linked known | paste -sd ' ')
    judge "the program calls only what docs/TRUST.md names: ${unknown:-all}" test -s linked -a -z "$unknown"
fi
