# Tests `make dist`: the tarball and the packages install without a toolchain, and their bytes depend only on those of the packed files, not
# on the place, the time, or the user.

released() {
    local name
    packed
    ln -s "$scratch/packed" one
    made_elsewhere
    name=$(cd one/made && ls ./*-linux.tar.gz)
    judge 'the tarball has the version in its name' test "$name" = "./cdpatch-$(cdpatch --help | sed -n '$s/cdpatch //p')-x86_64-linux.tar.gz"
    judge 'the checksums are those of the files' eval "(cd one/made && sha256sum --status -c ./*.sha256)"
    judge 'it warns once of what the owner has not filled in' eval '! grep -q "^[a-z]*: *$" "$top/tools/owner.txt" ||
        [ "$(grep -c "^unfit to be released: tools/owner.txt has no" one/errors)" = 1 ]'
    judge 'the checksums are printed' test "$(sort one/printed)" = "$(sort one/made/*.sha256)"
    judge 'cdscript.js lies beside the tarball' cmp -s "$top/cdscript" one/made/cdscript.js
    judge 'cdpatch.html lies beside the tarball' cmp -s "$top/cdpatch.html" one/made/cdpatch.html
    mkdir unpacked
    tar -C unpacked -xzf "one/made/$name"
    judge 'it unpacks into one directory of its own name' test "./$(ls unpacked).tar.gz" = "$name"
    # Neither the toolchain nor the tested program is on the path.
    PATH=/usr/bin:/bin make --no-print-directory -s -C unpacked/* install DESTDIR="$PWD/root" PREFIX=/usr
    make --no-print-directory -s -C one install DESTDIR="$PWD/wanted" PREFIX=/usr
    judge 'make install in it installs what make install in the sources does' diff -r wanted root
    judge 'the program is as it was' cmp -s "$program" root/usr/bin/cdpatch
    judge 'the tarball has no file that is not installed, but those that install' test \
        "$(find unpacked -type f | wc -l)" = "$(($(find root -type f | wc -l) + 3))"
    packaged_for_debian
    packaged_for_pip
    packaged_for_npm
    mv one/library away
    judge 'without the library nothing is packed' eval '! dist one distdir=nothing 2> log && [ -z "$(ls one/nothing)" ]'
    mv away one/library
}

# made_elsewhere: runs make dist as a different user in a different directory, with files that only this user can read, with a different
# time and one that is not packed, with a different umask and language, and on a different file system.
made_elsewhere() {
    local user=()
    (umask 077 && copied "$PWD/another place")
    find 'another place' -exec touch -h -d '2001-02-03' {} +
    : > 'another place/docs/notes~'
    if [ "$(id -u)" = 0 ] && ! missing setpriv util-linux 'a release by another user'; then
        chmod 755 "$scratch" . && chown -R 65534:65534 'another place'
        user=(setpriv --reuid=65534 --regid=65534 --clear-groups env HOME=/)
    fi
    ! "${user[@]}" test -w /dev/shm || user+=(env TMPDIR=/dev/shm)
    (umask 000 && cd 'another place' && "${user[@]}" env LC_ALL=C.UTF-8 TZ=Asia/Tokyo make --no-print-directory -s dist distdir=made > ../log)
    judge 'elsewhere, at another time, and by another user the same bytes are made' diff -r one/made 'another place/made'
    judge 'nobody else may write what is packed' test -z "$(find 'another place/made' -type f -perm /022)"
}

# listed DIRECTORY: prints its files and links.
listed() { (cd "$1" && find . -type f -o -type l) | LC_ALL=C sort; }

# The files of `make install`, by their names in Debian's packages: pages are in the directory of their package.
debian_names() {
    listed root | sed -E "s,lib/(libcdpatch|glibc|pkgconfig|cmake),lib/x86_64-linux-gnu/\1,; s,zsh/site-functions,zsh/vendor-completions,
        s,share/cdpatch/python/cdpatch,lib/python3/dist-packages/cdpatch,; s,share/man/.*,&.gz,; s,share/doc/cdpatch/,share/doc/*/,
        \,cdpatch/python/|/NOTICES|/CHANGELOG.md|docs/INSTALL.md,d" | LC_ALL=C sort
}
# The files unpacked in a root, without those that every package of Debian has.
unpacked_names() {
    listed "$1" | grep -v '^\./var/' | sed -E 's,share/doc/[^/]*/,share/doc/*/,; \,doc/\*/(changelog|copyright)|lintian/|dist-info/,d' | LC_ALL=C sort -u
}

# debian COMMAND..: runs dpkg on the root `system`, which has nothing else. Nothing is configured there, so no script runs.
debian() {
    dpkg --root="$PWD/system" --force-depends --force-not-root --force-bad-path --force-script-chrootless --log="$PWD/log" "$@" > log 2>&1
}
fresh_system() {
    rm -rf system
    mkdir -p system/var/lib/dpkg/{info,updates,triggers}
    touch system/var/lib/dpkg/status
}

# astray DIRECTORY: prints the places that pages name and that a Debian root lacks: all below /usr, and the targets of links.
astray() {
    local page path
    { cat "$1"/usr/share/doc/*/{README.md,docs/*.md} && gzip -dc "$1"/usr/share/man/man[13]/*.gz; } 2> errors | grep -oE '/usr(/[a-z0-9_.-]+)+' |
        grep -v '^/usr/\(bin\|lib\)/\(env\|python3$\)' | sort -u | while read -r path; do [ -e "$1${path%.}" ] || echo "$path"; done
    for page in "$1"/usr/share/doc/*/{README.md,docs/*.md}; do
        grep -oE '\]\([^):]+\)' "$page" | tr -d '])(' | while read -r path; do [ -e "${page%/*}/${path%#*}" ] || echo "${page##*/}: $path"; done
    done
    ! grep -E 'make (un)?install' "$1"/usr/share/doc/*/README.md
}

pages_of_debian() {
    judge "their pages name Debian's places: $(astray system | paste -sd ' ')" test -z "$(astray system)"
}

# has_symbols PACKAGE: whether its list of symbols has each call of the library with its symbol version.
has_symbols() {
    rm -rf about
    dpkg-deb --control "$1" about
    nm -D --defined-only "$library/libcdpatch.so.2" | sed -n 's/.* T \(.*\)@@/\1@/p' | sort > wanted.symbols
    [ -s wanted.symbols ] && sed -n 's/^ \(cdpatch_[^ ]*\) .*/\1/p' about/symbols | sort | cmp -s - wanted.symbols
}

# The source packages, together with the built files, give the same packages.
sources_for_debian() {
    missing git git "Debian's source package" && return
    dpkg-source --extract one/made/*.dsc sources > log 2>&1
    judge 'the source package has the sources' diff -r -x numbers.ts one/web sources/web
    (cd sources && PATH=/usr/bin:/bin debian/rules override_dh_auto_build) > log 2>&1
    judge 'without the toolchain its build says what it needs' test $? != 0 -a "$(grep -vc '^make' log)" = 1 -a -n \
        "$(grep '^This source package needs rt of the Rattle toolchain' log)"
    cp -r one/{cdpatch,cdscript,cdpatch.html,library,completions} sources
    cp one/python/cdpatch/_numbers.py sources/python/cdpatch
    mkdir by_hand && mv sources by_hand
    judge 'dpkg-buildpackage packs what was built there, and makes the same packages' makes_same_packages
}
makes_same_packages() {
    (cd by_hand/sources && dpkg-buildpackage --build=binary --no-sign) > log 2>&1 &&
        (cd one/made && for file in *.deb; do cmp "$file" "$OLDPWD/by_hand/$file" || exit; done)
}

packaged_for_debian() {
    local command
    for command in dpkg:dpkg dh:debhelper dh_python3:dh-python nm:binutils; do
        missing "${command%:*}" "${command#*:}" "Debian's packages" && return
    done
    fresh_system
    judge 'dpkg unpacks the packages' debian --unpack one/made/*.deb
    debian_names > wanted.names
    unpacked_names system > got.names
    same "Debian's packages have what make install installs, in Debian's places" wanted.names got.names
    judge 'the program and the library in them are as they were' eval 'cmp "$program" system/usr/bin/cdpatch &&
        cmp "$library/libcdpatch.so.2" system/usr/lib/x86_64-linux-gnu/libcdpatch.so.2'
    judge 'the page of a call is a link in it' test "$(readlink system/usr/share/man/man3/cdpatch_edc.3.gz)" = libcdpatch.3.gz
    judge 'their links lead to what they have' test -z "$(find system/usr -xtype l)"
    judge 'each that contains crates has their notices' test "$(grep -L '^== clap ==$' system/usr/share/doc/*/copyright)" = \
        system/usr/share/doc/python3-cdpatch/copyright
    judge 'the list of symbols has each call with its release' has_symbols one/made/libcdpatch2_*.deb
    judge 'what Python has compiled is removed with the package' eval 'dpkg-deb --info one/made/python3-cdpatch_*.deb prerm | grep -q "py3clean -p python3-cdpatch"'
    judge 'pip finds it' test "$(PYTHONPATH=system/usr/lib/python3/dist-packages /usr/bin/python3 -Bc \
        'import importlib.metadata as known; print(known.metadata("cdpatch")["Name"], known.version("cdpatch"))')" = "$(cdpatch --help | tail -n 1)"
    missing lintian lintian "Debian's packages, by lintian" ||
        judge "lintian finds nothing but what the owner has to fill in: $(found_by_lintian)" test -z "$(found_by_lintian)"
    pages_of_debian
    sources_for_debian
}

# The findings of lintian, except the missing address and licence, and the bug in which Debian would have been asked for a new package.
found_by_lintian() {
    lintian --no-cfg --allow-root --suppress-tags initial-upload-closes-no-bugs one/made/*.deb one/made/*.dsc 2>&1 |
        grep -v ' <>\|python3-cdpatch: copyright-without-copyright-notice'
}

packaged_for_pip() {
    missing pip3 python3-pip 'the wheel' && return
    pip3 --disable-pip-version-check install --no-index --quiet --target site one/made/*.whl > log 2>&1
    judge 'pip installs the wheel' test -f site/cdpatch/libcdpatch.so.2
    judge 'the library in it is as it was' cmp -s "$library/libcdpatch.so.2" site/cdpatch/libcdpatch.so.2
    judge 'without a licence PyPI refuses it' eval '[ -e "$top/LICENSE" ] || grep -q "^Classifier: Private ::" site/cdpatch-*.dist-info/METADATA'
    judge 'and a program in Python runs with it' test sectors_8_tail_0 = \
        "$(cd site && python3 -B -c 'import cdpatch; print(cdpatch.listing(open("../disc.bin", "rb").read()).split("\n")[-2].replace(" ", "_"))')"
}

# patches_what_is_dropped PACKAGE: whether its example page gives the program's result for the image and the script in `npm`.
patches_what_is_dropped() {
    SCRATCH=$PWD/npm /usr/bin/python3 -B "$top/tests/pages/npm_page.py" "$1" npm/readme/disc.bin npm/script \
        npm/wanted.bin > log 2>&1
}

example_page() {
    missing chromium chromium 'the example page of the package for npm' && return
    judge 'its example page patches an image that is dropped on it' patches_what_is_dropped npm/node_modules/cdpatch
}

# refuses_as_program: whether the installed npm package refuses what the program refuses.
refuses_as_program() { (cd npm && timeout 120 node npm_refused.mjs "$(command -v cdpatch)") > log 2>&1; }

# bundle OUT ENTRY WORD..: bundles a program in `npm` with esbuild.
bundle() { (cd npm && esbuild "$2" --bundle --log-level=error --outfile="$1" "${@:3}") > log 2>&1; }

# bundles_for_browsers: whether a bundle for browsers contains no import of node, and in Chromium reports an error or runs.
bundles_for_browsers() {
    rm -rf npm/page
    mkdir npm/page
    echo '<!DOCTYPE html><pre id="log"></pre><script type="module" src="bundle.js"></script>' > npm/page/index.html
    bundle page/bundle.js browser.mjs --format=esm && ! grep -q 'node:' npm/page/bundle.js || return
    ! command -v chromium > log || /usr/bin/python3 -B "$top/tests/pages/npm_bundle.py" npm/page "$library/cdpatch.wasm" > log 2>&1
}

bundled_packages() {
    local format
    printf '%s\n' "import { load, openFile } from 'cdpatch';" "load().then(async it => console.log((await it.list(await openFile('disc.bin'))).text));" \
        > npm/beside.mjs
    { echo "import module from 'cdpatch/cdpatch.wasm';"; sed 's/load()/load(module)/' npm/beside.mjs; } > npm/within.mjs
    printf '%s\n' "import { load, openFile } from 'cdpatch';" "const tell = it => { document.querySelector('#log').textContent = it.message; };" \
        "load().then(() => openFile('disc.bin')).catch(tell);" > npm/browser.mjs
    "$program" list npm/disc.bin > npm/wanted.list
    for format in esm cjs; do
        judge "with its module it is bundled for node, as $format" bundle "bundled.${format/esm/mjs}" within.mjs --platform=node "--format=$format" \
            --loader:.wasm=binary
        judge 'and runs' eval "(cd npm && node bundled.${format/esm/mjs} | grep .) | cmp - npm/wanted.list"
    done
    mkdir npm/elsewhere
    judge 'without it too' bundle elsewhere/beside.mjs beside.mjs --platform=node --format=esm
    judge 'then it says what is missing' eval '! (cd npm && node elsewhere/beside.mjs) > log 2>&1 && grep -q "Fault.*elsewhere/cdpatch.wasm" log'
    cp npm/node_modules/cdpatch/cdpatch.wasm npm/elsewhere
    judge 'and runs if its module is beside the bundle' eval '(cd npm && node elsewhere/beside.mjs | grep .) | cmp - npm/wanted.list'
    missing chromium chromium 'bundles with the package for npm in a browser'
    judge 'it is bundled for browsers' bundles_for_browsers
}

# Runs the example of the npm package's README on the image of the tests and on a damaged one, and compares the output.
packaged_for_npm() {
    missing npm npm 'the package for npm' && return
    missing tsc node-typescript 'the package for npm' && return
    mkdir -p npm/readme
    cp disc.bin "$top"/tests/pages/{npm,npm_refused}.mjs "$top/tests/pages/npm.ts" npm
    (cd npm && npm install --offline --no-audit --no-fund ../one/made/cdpatch-*.tgz > log 2>&1)
    judge 'npm installs the package' test -f npm/node_modules/cdpatch/cdpatch.wasm
    judge 'without a licence npm refuses to publish it' eval '[ -e "$top/LICENSE" ] ||
        node -e "process.exit(require(\"./npm/node_modules/cdpatch/package.json\").private === true ? 0 : 1)"'
    sed -n '/^```js$/,/^```$/p' "$top/web/npm/README.md" | sed '1d;$d' > npm/readme/readme.mjs
    sed -n '/^```text$/,/^```$/p' "$top/web/npm/README.md" | sed '1d;$d' > npm/readme/wanted
    head -c $((2048 * 20)) /dev/zero > npm/zeros
    "$top/cdscript" raw npm/zeros npm/readme/disc.bin
    printf '%s\n' 'cdpatch 1' 'set 16 1395 48656C6C6F was 0000000000' > npm/script
    (cd npm/readme && node readme.mjs > got 2>&1)
    same "its README's example prints what it says" npm/readme/wanted npm/readme/got
    cdpatch apply npm/readme/disc.bin npm/script npm/wanted.bin > log
    judge 'and makes what the program makes' cmp -s npm/wanted.bin npm/readme/new.bin
    # The limit truncates the last piece that is written.
    rm npm/readme/new.bin
    (cd npm/readme && trap '' XFSZ && ulimit -f 40 && node readme.mjs > ../log 2>&1)
    judge 'and fails if a file can have no more bytes' test "$? $(grep -o 'code:.*' npm/log)" = "1 code: 'EFBIG',"
    judge 'all calls of the package agree with the program' eval '(cd npm && node npm.mjs "$(command -v cdpatch)")'
    judge 'it refuses what the program refuses' refuses_as_program
    judge 'its types are those that a program in TypeScript sees' tsc --noEmit --strict --target es2022 --module es2022 \
        --moduleResolution node --lib es2022,dom npm/npm.ts
    cp npm/npm.ts npm/npm.mts
    judge 'and by the rules of node too' tsc --noEmit --strict --target es2022 --module nodenext --moduleResolution nodenext --lib es2022,dom npm/npm.mts
    judge 'a CommonJS program finds its files' eval '(cd npm && node -e "require.resolve(\"cdpatch/package.json\"); require.resolve(\"cdpatch/cdpatch.wasm\")")'
    bundled_packages
    judge 'it has the command' test "$(cd npm && npx --offline cdscript version)" = "$("$top/cdscript" version)"
    example_page
    judge 'its module is the library'"'"'s' cmp -s "$library/cdpatch.wasm" npm/node_modules/cdpatch/cdpatch.wasm
}

# Possible differences between builds in two directories.
judge 'the program has no path of the directory that it was built in' \
    test -z "$(LC_ALL=C grep -aoE '(crates|home|tmp|root)/[a-z_/.]*|[a-z_]*\.rt\b' "$program")"

enter release
released
