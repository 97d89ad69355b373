#!/usr/bin/env bash
# Tries what users run where only the commands are installed that every Debian has, and those that `make` needs: some suites, among them those
# of `make install` and `make dist`. Tests that need other commands must be skipped with the name of the package, and the rest must pass.
# Without esbuild and node, `make` must name their packages, and without rt the README: `bash tests/tools/bare.sh [PROGRAM]`. The last line is
# 'N passed, M failed'.
set -u
. "$(dirname "$0")/../lib/helpers.sh"
everywhere='awk basename bash cat chmod chown cmp comm cp cut date dd diff dirname dpkg du env expr false find fold grep gzip head id install join kill
    ln ls mawk md5sum mkdir mkfifo mktemp mv nice nproc od paste perl pwd readlink realpath rm rmdir sed seq sh sha1sum sha256sum sleep sort split
    stat stty tac tail tar tee test timeout touch tr true truncate uname uniq wc xargs yes'
needed=$(sed -n '/^\[build\]/,/^$/s/: .*//p' "$top/tools/packages.txt")
packages=$(sed -n '/^\[build\]/,/^$/s/^.*: //p' "$top/tools/packages.txt" | grep -vxE 'make|python3' | paste -sd ' ')
# Suites that are short here. This one must not be among them.
suites=(program faults memory system random_faults library python help terminals installing release fit forms)

# with COMMAND..: creates a directory with these commands. Debian's Python comes first on the path of every Debian.
with() {
    local command
    mkdir "$1"
    for command in "${@:2}"; do
        ln -s "$(PATH=/usr/bin:$PATH command -v "$command")" "$1"
    done
}
# shellcheck disable=SC2086 # words of one text
with bare $everywhere $needed
# shellcheck disable=SC2086
with barer $everywhere make python3
# There, AS is the number of the user, and apt-get only writes its words to a file.
rm barer/id
printf '#!/bin/sh\necho "$AS"\n' > barer/id
printf '#!/bin/sh\necho "$@" >> %q\n' "$PWD/installed" > barer/apt-get
chmod +x barer/id barer/apt-get
bare() { env -i "HOME=$scratch" "PATH=$PWD/$1" "PROGRAM=$program" RANDOM_CASES=20 PROCESS_CASES=5 "${@:2}" > log 2>&1; }

# names_packages USER GOAL: whether make stops there with one sentence, which has these packages. It has no program to test.
names_packages() {
    ! bare barer env "AS=$1" make -C "$top" --no-print-directory PROGRAM=none "$2" &&
        [ "$(grep -v '^make: ' log)" = "make needs more packages of Debian: sudo apt-get install $packages" ]
}
judge 'make without esbuild and node names their packages' names_packages 0 all
judge 'and make check does, and installs nothing' eval 'names_packages 1000 check && [ ! -e installed ]'
judge 'as root it installs them' eval '! bare barer env AS=0 make -C "$top" PROGRAM=none check && grep -q " install esbuild$" installed'
judge 'make try needs neither' eval 'bare barer make -n -C "$top" try && ! grep -q packages.sh log'
judge 'and without rt it names the README' eval '! bare barer make -C "$top" --no-print-directory try &&
    [ "$(grep -v "^make: " log)" = "There is no rt on the path: see \"What a build needs\" in README.md." ]'

# unnamed: prints the tests that were skipped for want of neither a package nor a permission.
unnamed() { sed -nE 's/^[1-9][0-9]* skipped: //p' log | sed 's/; /\n/g' | grep -vE "Debian's packages? |needs such a processor|a user who may"; }

judge 'nothing fails' bare bare "$tests/run" "${suites[@]}"
judge 'the program and the library are tested' test "$(grep -cE '^(program|library): [1-9][0-9]* passed, 0 failed' log)" = 2
judge 'something is skipped' grep -q '^[1-9][0-9]* skipped: ' log
unlisted=$(sed -n 's/^What was skipped wants these packages of Debian: //p' log | tr ' ' '\n' | while read -r package; do
    grep -qE "^[^#]+: (.* )?${package//+/\\+}( |\$)" "$top/tools/packages.txt" || echo "$package"
done | paste -sd ' ')
judge "tools/packages.txt has each: ${unlisted:-all}" test -z "$unlisted"
judge "what is skipped is skipped for a package: $(unnamed | head -n 3 | paste -sd ';')" test -z "$(unnamed)"
[ "$failed" = 0 ] || grep -E '^FAILED|not found' log | head -n 20
finish
