# Tests the man pages: their form, and the version, which help and the changelog have too.

enter page
version=$(sed -n 's/^## \([0-9][0-9.]*\).*/\1/p' "$top/CHANGELOG.md" | head -n 1)
judge 'the changelog has a version' test -n "$version"
judge 'help ends with the version' test "$(cdpatch --help | tail -n 1)" = "cdpatch $version"
for page in cdpatch.1 cdscript.1 libcdpatch.3; do
    judge "$page has the version" grep -qxF ".Os \"cdpatch $version\"" "$top/man/$page"
done
if ! missing mandoc mandoc 'the form of the man page'; then
    for page in cdpatch.1 cdscript.1; do
        # The other man pages on this machine do not matter here.
        mandoc -T lint "$top/man/$page" 2> /dev/null | grep -vE 'STYLE: (referenced manual not found|operating system explicitly specified)' > linted
        judge "mandoc has no word on $page" test ! -s linted
        judge "$page is at most 80 columns wide" test -z "$(mandoc -T ascii -O width=80 "$top/man/$page" | sed 's/.\x08//g' | awk 'length > 80')"
    done
fi
