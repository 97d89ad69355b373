#!/usr/bin/env bash
# Tests tools/pack.py and its errors, the output of tools/pairs.py, the errors of `make release`, and the types and forms of web/ and of the
# tools: `bash tests/tools/pack.sh PROGRAM PART..`. The last line is 'N passed, M failed'.
set -u
. "$(dirname "$0")/../lib/helpers.sh"

# A small `web`: a core of two modules, a command, and a page.
mkdir -p small/{core,command,page/texts}
printf '%s\n' '// What both interfaces use.' '' '/** @typedef {number} Size */' '' 'const step = 3;' '' '/**' ' * Adds.' ' * @param {number} n' ' */' \
    'export function more(n) {' '    return n + step; // stays' '}' > small/core/count.js
printf '%s\n' "import { more } from './count.js';" 'const [first, second] = [1, 2];' 'export class Twice {' \
    '    of(n) {' '        return more(more(n));' '    }' '}' > small/core/twice.js
printf '%s\n' "import { basename } from 'node:path';" "import { gunzipSync } from 'node:zlib';" "import { more } from '../core/count.js';" \
    "import { Twice } from '../core/twice.js';" 'const step = 20;' 'export async function main(words) {' \
    "    const module = gunzipSync(Buffer.from(JOINED.module, 'base64')).toString('hex').slice(-8);" \
    '    console.log(new Twice().of(step), more(1), basename(JOINED.file), module, ...words);' '}' \
    'export function start() {' '    main(process.argv.slice(2));' '}' > small/command/main.js
printf '%s\n' "import { Twice } from '../core/twice.js';" "import { draw } from './draw.js';" "import './worker.js';" \
    'globalThis.joined = JOINED;' "if (JOINED.script !== '') draw(new Twice().of(1));" > small/page/main.js
printf '%s\n' 'export function draw(...values) {' "    document.title = ['', '</script>', ...values].join('\\n');" '}' > small/page/draw.js
printf '%s\n' "import { more } from '../core/count.js';" \
    "if (typeof document === 'undefined') self.onmessage = event => self.postMessage([more(event.data)]);" > small/page/worker.js
printf '%s\n' '<!doctype html>' '<meta charset="utf-8">' '<title>small</title>' '<link rel="icon" href="icon.svg">' \
    '<link rel="stylesheet" href="style.css">' '<p id="text" title="{title}">{small}</p>' '<script type="module" src="main.js"></script>' \
    '<plaintext hidden id="data">' > small/page/page.html
echo '<svg xmlns="http://www.w3.org/2000/svg"></svg>' > small/page/icon.svg
printf '%s\n' "export const title = 'a \"title\"';" "export const small = 'small' +" "    ' & ' +" '    "naïve & isn'"'"'t";' 'export const KEYS = [' "    ['x', 'y']," '];' \
    > small/page/texts/english.js
echo 'p { color: black; }' > small/page/style.css
head -c 100 "$vectors" > module
echo 'who made what' > NOTICES

# join INTERFACE OUT [WEB]: packs an interface of the small `web`.
join() { python3 -B "$top/tools/pack.py" "$1" module "$2" --web "${3-small}" > log 2> errors; }

# changed FILE COMMAND..: creates a copy `other` of the small `web` with a file changed by a command, which reads it from standard input.
changed() {
    local file=$1
    shift
    rm -rf other
    cp -r small other
    "$@" < "small/$file" > "other/$file"
}

# refuses INTERFACE TEXT FILE COMMAND..: judges that with a changed file nothing is packed, and the error contains this text.
refuses() {
    local interface=$1 text=$2
    shift 2
    changed "$@"
    rm -f out
    judge "the join refuses $1: $text" eval '! join "$interface" out other && [ ! -e out ] && grep -qF -- "$text" errors'
}

# after TEXT: appends a text; the function below prepends one.
after() { cat; printf '%b\n' "$1"; }
before() { printf '%b\n' "$1"; cat; }

test_command() {
    local end
    end=$(tail -c 4 module | od -An -tx1 | tr -d ' ')
    judge 'a command is joined' join command cdscript
    judge 'it runs, and has the whole module' test "$(./cdscript a 'b c')" = "26 4 cdscript $end a b c"
    ln -sf cdscript link
    judge 'through a link' test "$(./link)" = "26 4 cdscript $end"
    cp cdscript cdscript.js
    judge 'as node runs it' test "$(node cdscript.js x)" = "26 4 cdscript.js $end x"
    judge 'who requires it gets main' test "$(node -p 'Object.keys(require("./cdscript")).join()')" = main,start
    judge 'comments are left out' eval '! grep -qE "What both interfaces|typedef|Adds|stays|^// " cdscript'
    printf "Object.defineProperty(process.versions, 'node', { value: '16.20.2' });\n" > old.js
    node -r ./old.js cdscript > log 2> errors
    judge 'an older node is named in one line' test "$? $(cat log errors)" = '2 cdscript needs node 18 or later, and this is 16.20.2'
    mkdir -p none
    ln -sf "$(command -v sh)" none/sh
    PATH=$PWD/none ./cdscript > log 2> errors
    judge 'and where there is none, that is' test "$? $(cat log errors)" = '2 cdscript needs node 18 or later'
}

# has_its_hashes PAGE: whether a page has one script, the loader, with another one gzipped in it, and one style, with their hashes in its policy,
# and nothing else that may run.
has_its_hashes() {
    python3 - "$1" << 'EOF_HASHES'
import base64, gzip, hashlib, re, sys
page = open(sys.argv[1], encoding='utf-8').read()
assert page.count('<script') == page.count('<style') == 1
hashed = lambda text: 'sha256-' + base64.b64encode(hashlib.sha256(text).digest()).decode()
loader, = re.findall('<script>(.*?)</script>', page, re.DOTALL)
style, = re.findall('<style>(.*?)</style>', page, re.DOTALL)
script = gzip.decompress(base64.b64decode(re.search('"([A-Za-z0-9+/=]{200,})"', loader)[1]))
assert script.startswith(b"'use strict';")
assert f"; script-src '{hashed(loader.encode())}' '{hashed(script)}' 'wasm-unsafe-eval'; style-src '{hashed(style.encode())}';" in page
EOF_HASHES
}

test_page() {
    judge 'a page is joined' join page page.html
    judge 'its policy has the hashes of its scripts and its style' has_its_hashes page.html
    judge 'it is strict' test "$(grep -c "<script>'use strict';" page.html)" = 1
    judge 'its last line takes what comes after it as text' test "$(tail -n 1 page.html)" = '<plaintext hidden id="data">'
    judge 'its texts are those of english.js' grep -qF '<p id="text" title="a &quot;title&quot;">small &amp; naïve &amp; isn&#x27;t</p>' page.html
    judge 'it names no other file' eval '! grep -oE "(href|src)=.{0,7}" page.html | grep -vE "=.?\"data:"'
    changed page/draw.js cat
    echo '{ "compilerOptions": { "alwaysStrict": true } }' > other/tsconfig.json
    judge 'what editors are told changes no byte' eval 'join page told.html other && cmp -s page.html told.html'
    judge 'the mark before data stands there once' test "$(grep -c '^<plaintext' page.html)" = 1
    judge 'it has the whole module' node "$tests/tools/packed_page.mjs" module page.html module 2> log
    judge 'it has the notices' node "$tests/tools/packed_page.mjs" notices page.html NOTICES 2> log
    judge 'its script is the program of its workers' node "$tests/tools/packed_page.mjs" worker page.html 2> log
    judge 'it has what its own text is made of, and the names of what made it' node "$tests/tools/packed_page.mjs" own page.html 2> log
}

# The interfaces of this tree, packed here, and then in a different directory at a different time, by a different user if possible.
test_two_builds() {
    local interface other=() user='this user'
    if [ "$(id -u)" = 0 ] && ! missing setpriv util-linux 'a build by another user'; then
        other=(setpriv --reuid=65534 --regid=65534 --clear-groups)
        user='another user'
    fi
    mkdir -p 'another place'
    cp -r "$top/tools" "$top/web" module NOTICES 'another place'
    chmod 755 . && chmod -R a+rX 'another place' && chmod 777 'another place'
    for interface in command page; do
        python3 -B "$top/tools/pack.py" "$interface" module "this.$interface"
    done
    sleep 1
    for interface in command page; do
        (cd 'another place' && umask 077 &&
            "${other[@]}" env TMPDIR=/tmp LC_ALL=C HOME=/ python3 -B tools/pack.py "$interface" module "that.$interface")
        judge "$user makes the same $interface in another directory" cmp "this.$interface" "another place/that.$interface"
    done
}

test_refusals() {
    local python
    refuses command 'Could not resolve "./x.js"' command/main.js after "import { x } from './x.js';\nx();"
    refuses command 'No matching export in "web/core/count.js" for import "less"' command/main.js \
        after "import { less } from '../core/count.js';\nless();"
    refuses command 'Top-level await' command/main.js after 'await main([]);'
    refuses command '"import.meta" is not available' command/main.js after 'console.log(import.meta.url);'
    refuses command 'has already been declared' command/main.js after 'function step() {}'
    refuses page 'Could not resolve "node:fs"' page/draw.js before "import { readSync } from 'node:fs';"
    refuses page 'could end it, or change on its way' page/style.css after "p::after { content: '<!--'; }"
    refuses page 'english.js has no text KEYS' page/page.html sed 's/{small}/{KEYS}/'
    refuses page 'Expected ":"' page/style.css after 'p { colour red; }'
    refuses page 'it has another end or another script' page/page.html after 'text'
    refuses page 'it has another end or another script' page/page.html sed 's/<p id/<script>x<\/script><p id/'
    refuses page 'stands there 0 times, and not once' page/page.html sed '/stylesheet/d'
    refuses page 'stands there 2 times, and not once' page/page.html sed 's/^<meta.*/&&/'
    refuses page 'bytes, more than 456000' page/style.css sh -c 'yes "p { color: black; }" | head -n 60000'
    python=$(python3 -c 'import sys; print(sys.executable)')
    judge 'without esbuild its package is named' eval '! PATH=/nothing "$python" -B "$top/tools/pack.py" page module out --web small 2> errors &&
        grep -qF "package esbuild" errors'
}

# release_tree: creates a tree `release` whose sources are a commit, with stand-ins for rt, tsc, and the files that `make` builds.
release_tree() {
    local name
    mkdir -p release/library/x86-64-v3 kit/rattle stubs
    cp -r "$top"/{Makefile,install.mk,dist.list,README.md,CONTRIBUTING.md,CHANGELOG.md,crates.txt,.gitignore,debian,docs,man,examples,include,python} release
    cp -r "$top"/{tools,web} release
    while read -r name; do
        mkdir -p "kit/rattle/$name"
        echo 'a licence' > "kit/rattle/$name/LICENSE-MIT"
    done < <(sed 's/#.*//; s/:/ /' release/crates.txt | tr -s ' ' '\n')
    printf '%s\n' '#!/bin/sh' "case \$1 in version) echo \"a-kit logic \$LOGIC\" ;; doc) echo '$PWD/kit/START' ;; esac" > stubs/rt
    printf '%s\n' '#!/bin/sh' "echo 'cdpatch $version'" > release/cdpatch
    # The types that tsc generates do not matter here.
    printf '%s\n' '#!/bin/sh' 'while [ "$1" != --outDir ]; do shift; done' 'cd web' \
        'find npm core -name "*.ts" | while read -r file; do mkdir -p "$2/${file%/*}" && : > "$2/${file%.ts}.d.ts"; done' > stubs/tsc
    chmod +x stubs/* release/cdpatch
    ssh-keygen -q -t ed25519 -N '' -f owner && ssh-keygen -q -t ed25519 -N '' -f another || return
    sed -i -e 's/^\(address\|toolchain\|questions\):$/& a@localhost/' -e 's/^licence:$/& none/' \
        -e "s|^key:\$|& $(cut -d ' ' -f 1,2 owner.pub)|" release/tools/owner.txt
    echo terms > release/LICENSE
    sed -i '/^## Unreleased$/d' release/CHANGELOG.md
    grep -rliE 'no licence has been chosen|not released yet|no public release' release --include=*.md --include=*.[13] --include=copyright |
        xargs sed -i -E 's/no licence has been chosen|not released yet|no public release//gI'
    mkdir release/completions
    : | tee release/completions/{_cdpatch,cdpatch.bash,cdpatch.fish,_cdscript,cdscript.bash} > release/completions/cdscript.fish
    : | tee release/library/{libcdpatch.a,libcdpatch.so.2} > release/library/x86-64-v3/libcdpatch.so.2
    # A stand-in for Debian's packages, which need existing libraries.
    printf '%s\n' '#!/bin/sh' ': > ../cdpatch_stand-in.deb' > stubs/dpkg-buildpackage
    printf '\0asm\1\0\0\0' > release/library/cdpatch.wasm
    (cd release && git init -q && git add . && commit && bash tools/notices.sh library/NOTICES &&
        python3 -B tools/pack.py command library/cdpatch.wasm cdscript && python3 -B tools/pack.py page library/cdpatch.wasm cdpatch.html)
}

commit() { git -c user.name=a -c user.email=a@localhost commit -aqm changed; }
release() { make --no-print-directory -s -C "$1" release distdir="$PWD/made" "${@:2}" > log 2>&1; }

# unfit TEXT COMMAND..: makes a mistake in the tree `unfit`, and records a part of the reason that must be given for it. `judge_unfit`
# judges that nothing is released from this tree, for all these reasons.
reasons=()
unfit() {
    [ -e unfit ] || cp -r release unfit
    (cd unfit && "${@:2}")
    reasons+=("$1")
}
judge_unfit() {
    local reason
    rm -rf made && mkdir made
    release unfit
    judge "nothing is released if ${reasons[0]}" test $? != 0 -a -z "$(ls made)"
    for reason in "${reasons[@]}"; do
        judge "make release refuses: $reason" grep -q "^unfit to be released: .*$reason" log
    done
    rm -rf unfit
    reasons=()
}

names_release() { bash release/tools/fit.sh toolchain > log && grep -qF "release 'a-kit' is none that was tried" log; }

# Whether each released file has a valid signature, and no other file has one.
signed() {
    local file
    echo "cdpatch $(cut -d ' ' -f 1,2 owner.pub)" > signers
    for file in made/*.sha256; do
        file=${file%.sha256}
        ssh-keygen -Y verify -f signers -I cdpatch -n file -s "$file.sig" < "$file" > log || return
        ! ssh-keygen -Y verify -f signers -I cdpatch -n file -s "$file.sig" < owner.pub > log 2>&1 || return
    done
}

test_release() {
    local version PATH=$PWD/stubs:$PATH
    missing git git 'make release' && return
    missing ssh-keygen openssh-client 'make release' && return
    version=$(sed -n 's/^## \([0-9.]*\) .*/\1/p' "$top/CHANGELOG.md" | head -n 1)
    LOGIC=$(grep -oE '`[0-9a-f]{16}`' "$top/README.md" | tr -d '`')
    export LOGIC GIT_CONFIG_GLOBAL=/dev/null
    judge 'a tree to be released is made' release_tree
    mkdir -p made
    judge 'make release makes what make dist makes' eval 'release release SIGN="$PWD/owner" && [ -s made/cdpatch.html ] &&
        (cd made && sha256sum --status -c ./*.sha256)'
    judge 'systems for which nothing was built are said' test \
        "$(grep '^Nothing was built' log | grep -o '(.*)' | paste -sd ' ')" = '(make windows) (make arm64)'
    judge 'what is fit to be released has no warning' eval '! grep "^warning" log'
    judge 'the address of the owner is in the package of the sources' grep -q '^Maintainer: .* <a@localhost>$' made/cdpatch_*.dsc
    judge 'what make release signs is verified as INSTALL says' signed
    judge 'only what is not signed is said not to be' eval \
        'make -n -C release release | grep -q "Nothing was signed" && ! make -n -C release release SIGN=owner | grep "Nothing was signed"'
    judge 'nothing is signed with another key than the owner has given' eval \
        '! bash release/tools/sign.sh another owner.pub 2> log && [ ! -e owner.pub.sig ]'
    judge "a toolchain's release that was not tried is named, and passes" names_release
    unfit 'tools/owner.txt has no licence' sed -i 's/^licence:.*/licence:/' tools/owner.txt
    unfit 'there is no LICENSE' rm LICENSE
    unfit 'README.md says that there is no licence, or no release' sed -i '1s/$/ No licence has been chosen yet./' README.md
    unfit 'debian/copyright says that there is no licence, or no release' sed -i '1s/$/ no licence has been chosen yet/' debian/copyright
    unfit "the first entry of debian/changelog is not of version" sed -i '1s/([0-9.]*-/(1.2.3-/' debian/changelog
    unfit 'CHANGELOG.md, is not of version 9.9.9' sed -i '0,/^## [0-9.]* /s//## 9.9.9 /' CHANGELOG.md
    unfit 'the notices' sed -i 1d library/NOTICES
    unfit 'cdscript is not what these sources make' sed -i '$s/$/ /' cdscript
    unfit 'cdpatch.html is not what these sources make' rm cdpatch.html
    judge_unfit
    unfit 'tools/owner.txt has no address, licence, key, toolchain, questions' sed -i 's/^\([a-z]*\):.*/\1:/' tools/owner.txt
    unfit "is not of version $version with a date" sed -i '0,/^## [0-9.]* .*/s//## '"$version"' (soon)/' CHANGELOG.md
    unfit 'cdscript is not what these sources make' sed -i 's/is closed/is shut/' tools/pack.py
    unfit 'cdpatch.html is not what these sources make' sed -i 's/<title>/<title >/' cdpatch.html
    unfit 'changes that are not committed' eval 'commit; touch docs/NEW.md'
    judge_unfit
    unfit "is not of version $version with a date" sed -i '0,/^## /s//## Unreleased\n\n&/' CHANGELOG.md
    printf '%s\n' '#!/bin/sh' '[ "$1" != --version ] || { echo 0.18.0; exit; }' "exec $(command -v esbuild) \"\$@\"" > stubs/esbuild
    chmod +x stubs/esbuild
    unfit 'other tools made it than tools/versions.txt names: esbuild' commit
    LOGIC=0123456789abcdef unfit "of the toolchain 'a-kit' is not the one that docs/TRUST.md names" true
    LOGIC=0123456789abcdef judge_unfit
    rm stubs/esbuild
}

made_pairs() { python3 -B "$top/tools/pairs.py" | cmp - "$top/web/core/encodings/pairs.ts"; }

test_pairs() {
    missing chromium chromium 'the pairs of bytes of other languages' && return
    judge 'the pairs of bytes of other languages are what three decoders make of them' made_pairs
}

typed_tools() {
    mypy --strict --cache-dir=types "$top"/tools/{contracts,frequencies,header,options,pack,pages,pairs,retarget,strip}.py \
        "$tests/wrong/definitions/edits.py" > log || { cat log; false; }
}

# lint DIRECTORY WORD..: runs eslint there. If node is not Debian's, Debian's eslint finds its parts by NODE_PATH.
lint() {
    (cd "$1" && NODE_PATH=/usr/share/nodejs eslint -f unix --rulesdir "$top/tools/eslint" --rule 'import-cycle: error' --rule 'layers: error' "${@:2}")
}
lint_tools() {
    lint "$top/tools" --no-eslintrc -c "$top/web/.eslintrc.json" --env browser,node --parser-options sourceType:module --rule 'max-len: [error, 140]' .
}

# refuses_form TEXT FILE LINE: records an additional line of a module in out/web for which eslint must report this text. Each line of a module
# is in a different copy of out/web, so that eslint reads all of them in one run.
forms=() linted=()
declare -A lines_of=()
refuses_form() {
    local name="eslint refuses $2 with ${3%;}: $1" copy=$((lines_of[$2]))
    [ -d "forms.$copy" ] || cp -r "$top/out/web" "forms.$copy"
    printf '%s\n' "$3" >> "forms.$copy/$2"
    lines_of[$2]=$((copy + 1))
    linted+=("forms.$copy/$2")
    forms+=("$name" "$1" "forms.$copy/$2")
}
judge_forms() {
    local i
    lint . "${linted[@]}" > forms.log
    for ((i = 0; i < ${#forms[@]}; i += 3)); do
        judge "${forms[i]}" is_said "${forms[@]:i + 1:2}"
    done
}
is_said() { grep -F "/$2:" forms.log | grep -qF "$1"; }
# refuses_source TEXT FILE LINE: judges that tools/sources.js reports this text for additional lines of a file in web/.
refuses_source() { judge "tools/sources.js refuses in $2: $1" is_refused "$@"; }
is_refused() {
    rm -rf other
    cp -r "$top/web" other
    printf '%b\n' "$3" >> "other/$2"
    ! node "$top/tools/sources.js" other > log && grep -F "other/$2:" log | grep -qF "$1"
}

# of_header NAME: prints the number CDPATCH_NAME of the header.
of_header() { sed -nE "s/.*\bCDPATCH_$1 = ([0-9]+).*/\1/p" "$top/include/cdpatch.h"; }

# lacks_numbers WEB FILE..: whether no code in these files repeats a number of cdpatch.h that is unlikely to be anything else.
lacks_numbers() {
    local number rule='error' sector base
    sector=$(of_header SECTOR_SIZE)
    base=$(of_header LAST_BASE)
    for number in "$sector" "$(of_header MOST_SCRIPT_BYTES)" "$base" $((base + 1)) "$(of_header LAST_BLOCK)" \
        $(($(of_header MOST_SECTORS) * sector)); do
        rule+=",\"Literal[value=$number]\""
    done
    (cd "$1" && NODE_PATH=/usr/share/nodejs eslint -f unix --no-eslintrc --parser-options=ecmaVersion:2020,sourceType:module \
        --ignore-pattern core/module/numbers.js --rule "no-restricted-syntax: [$rule]" "${@:2}")
}
has_number() {
    rm -rf other
    cp -r "$top/out/web" other
    echo 'export const LAST = 449849;' >> other/core/bytes.js
    ! lacks_numbers other core/bytes.js > log && grep -qF core/bytes.js log
}

test_forms() {
    missing eslint eslint 'the forms of web/' && return
    judge 'the numbers of cdpatch.h stand nowhere else in web/' lacks_numbers "$top/out/web" .
    judge 'a number of cdpatch.h in the core is refused' has_number
    judge 'the forms of web/' lint "$top/out/web" .
    judge "the forms of the tools' JavaScript" lint_tools
    if ! missing tsc node-typescript 'the lengths and the types of layers in web/'; then
        judge 'the lengths and the types of layers in web/' node "$top/tools/sources.js" "$top/web"
        refuses_source '../disc/disc.js is in a higher layer' core/iso/files.ts "import type { Disc } from '../disc/disc.js';"
        refuses_source 'The line is longer than 140' core/bytes.ts "$(printf '// %138s' x)"
        refuses_source 'The function has more than 40 lines' core/bytes.ts "export function long() {$(printf '\\n%.0s' {1..40})}"
        refuses_source 'The file has more than 400 lines' core/bytes.ts "$(printf '\\n%.0s' {1..400})"
    fi
    refuses_form './calls.js imports this module' core/module/arena.js "export { Calls } from './calls.js';"
    refuses_form './notices.js imports this module' page/ui/dom.js "import './notices.js';"
    refuses_form '../texts/index.js is in a higher layer' core/iso/files.js "import '../texts/index.js';"
    refuses_form './module/index.js is in a higher layer' core/bytes.js "import './module/index.js';"
    refuses_form '../more/index.js is in a layer that has no place in the order' core/iso/files.js "import '../more/index.js';"
    refuses_form 'Import views.js of that layer' command/arguments.js "import { dataTrack } from '../core/disc/index.js';"
    refuses_form 'Import views.js of that layer' command/arguments.js "import { Pool } from '../core/pool/index.js';"
    refuses_form 'Import views.js of that layer' npm/jobs.js "export * from '../core/sectors/index.js';"
    refuses_form '../tasks/index.js is in a higher layer' core/texts/find.js "import '../tasks/index.js';"
    refuses_form 'Import index.js of that layer' core/tasks/merge.js "import '../sectors/sector.js';"
    refuses_form 'Import views.js of that layer' page/disc/map.js "import '../../core/sectors/sector.js';"
    refuses_form 'The core imports only of itself' core/sectors/sector.js "import '../../page/ui/dom.js';"
    refuses_form 'The core imports only of itself' core/bytes.js "import '../page/ui/dom.js';"
    refuses_form 'The core imports only of itself' core/iso/files.js "import '../../sentences/index.js';"
    refuses_form 'The sentences import only of themselves and of the core' sentences/english.js "import '../page/texts/index.js';"
    refuses_form 'The core imports only of itself' core/bytes.js "import 'node:os';"
    refuses_form 'The page imports only of itself, of the core and of the sentences' page/ui/dom.js "import '../../command/files.js';"
    refuses_form 'The page imports only of itself, of the core and of the sentences' page/main.js "import '../command/files.js';"
    refuses_form 'The page imports only of itself, of the core and of the sentences' page/ui/dom.js "import 'node:fs';"
    refuses_form "What a folder gives to others stands in its index.js" page/disc/map.js "import '../ui/dom.js';"
    refuses_form 'The state of the page is changed by its methods' page/disc/map.js "app.image = null;"
    refuses_form 'The methods of the state tell what has changed' page/disc/map.js "app.tell('image');"
    for file in page/disc/map.js command/arguments.js; do
        refuses_form 'A failure has a code' $file "export const isGone = error => error.message.includes('gone');"
        refuses_form 'The core reads and writes the lines of scripts' $file 'export const FILLED = /^fill (\d+)/;'
        refuses_form 'The core reads and writes the lines of scripts' $file 'export const line = block => `rebuild ${block}`;'
    done
    refuses_form 'The core has codes and facts, and no sentences' core/sectors/sector.js "export const left = { sentence: 'it is left' };"
    refuses_form 'A failure has a code' core/sectors/sector.js "export const isGone = error => error.message === 'gone';"
    refuses_form 'Calls has a method for each call' page/disc/map.js "calls.exports.cdpatch_version();"
    refuses_form '../disc/index.js imports this module' page/text/panel.js "import '../disc/index.js';"
    refuses_form 'The command imports only of itself, of the core, of the sentences and of node' command/arguments.js "import '../page/ui/dom.js';"
    refuses_form 'The command imports only of itself, of the core, of the sentences and of node' command/arguments.js "import 'os';"
    for file in core/sectors/sector.js page/disc/map.js command/arguments.js; do
        refuses_form 'Do not nest ternary expressions' $file "export const signOf = it => it < 0 ? -1 : it > 0 ? 1 : 0;"
        refuses_form 'Set each field by its name' $file "export class Held { constructor(held) { Object.assign(this, held); } }"
    done
    for file in core/bytes.js core/sectors/sector.js page/main.js page/ui/dom.js command/arguments.js; do
        refuses_form 'A dynamic import' $file "import('./x.js');"
    done
    judge_forms
}

test_types() {
    missing mypy mypy 'the types of the tools' || judge 'the types of the tools' typed_tools
    missing tsc node-typescript 'the types of web/' || judge 'the types of web/' tsc -p "$top/web"
}

for part in ${ONLY-${*:2}}; do
    "test_$part"
done
finish
