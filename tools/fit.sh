#!/usr/bin/env bash
# `tools/fit.sh VERSION` prints each reason why the files that `make` built cannot be released as VERSION, and has status 1 if there is one. For
# example, the page and cdscript must be byte for byte what these sources give with the tools of tools/versions.txt. `tools/fit.sh toolchain`
# prints only the reasons of `rt version`, and `tools/fit.sh owner` only those of tools/owner.txt.
set -u
version=$1
cd "$(dirname "$0")/.." || exit 1
scratch=$(mktemp -d)
trap 'rm -rf "$scratch"' EXIT
status=0

# fit REASON COMMAND..: prints a reason if a command fails.
fit() {
    "${@:2}" > "$scratch/log" 2>&1 && return
    echo "unfit to be released: $1"
    status=1
}

committed() { git status --porcelain > "$scratch/changes" && [ ! -s "$scratch/changes" ]; }
has_version() {
    [ "$(./cdpatch --help | tail -n 1)" = "cdpatch $version" ] && grep -m 1 '^## ' CHANGELOG.md | grep -q "^## $version (20[0-9-]*)$"
}
has_tools() { python3 -B tools/pack.py --versions | cmp -s tools/versions.txt -; }
# made FILE COMMAND..: whether a command creates a file identical to this one in the scratch directory.
made() { "${@:2}" && cmp -s "$1" "$scratch/$(basename "$1")"; }

fit_toolchain() {
    local page
    for page in README.md docs/TRUST.md; do
        fit "the logic '$logic' of the toolchain '$release' is not the one that $page names" grep -qF "\`$logic\`" "$page"
    done
}

fit_owner() {
    local unfilled
    unfilled=$(sed -n 's/^\([a-z]*\): *$/\1/p' tools/owner.txt | paste -sd , | sed 's/,/, /g')
    fit "tools/owner.txt has no $unfilled" test -z "$unfilled"
}

read -r release _ logic < <(rt version 2> /dev/null < /dev/null || echo unknown as unknown)
case $version in
    toolchain)
        fit_toolchain
        # Releases with the same logic accept the same proofs.
        [ "$status" = 1 ] || grep -qF "\`$release\`" README.md ||
            echo "warning: the toolchain's release '$release' is none that was tried (README.md); its logic is the same."
        exit "$status"
        ;;
    owner)
        fit_owner
        exit "$status"
        ;;
esac
fit 'the sources have changes that are not committed, or no commit' committed
fit_owner
fit 'there is no LICENSE with the terms that tools/owner.txt names' test -s LICENSE
while read -r page; do
    fit "$page says that there is no licence, or no release" false
done < <(grep -rliE 'no licence has been chosen|not released yet|no public release' README.md CONTRIBUTING.md docs man \
    tools/README.tarball.md debian/copyright)
fit "the program, or the first heading of CHANGELOG.md, is not of version $version with a date" has_version
fit "the first entry of debian/changelog is not of version $version" grep -q -m 1 "^cdpatch ($version-" <(head -n 1 debian/changelog)
fit_toolchain
fit "other tools made it than tools/versions.txt names: $(paste -sd , tools/versions.txt | sed 's/,/, /g')" has_tools
fit 'the notices are not those of the crates in it' made library/NOTICES bash tools/notices.sh "$scratch/NOTICES"
fit 'cdscript is not what these sources make' \
    made cdscript python3 -B tools/pack.py command library/cdpatch.wasm "$scratch/cdscript"
fit 'cdpatch.html is not what these sources make' \
    made cdpatch.html python3 -B tools/pack.py page library/cdpatch.wasm "$scratch/cdpatch.html"
[ "$status" = 0 ]
