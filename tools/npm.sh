#!/usr/bin/env bash
# `tools/npm.sh LIBRARY CDSCRIPT VERSION DIRECTORY` builds the npm package in DIRECTORY from web/npm, web/core, the module of LIBRARY, and
# cdscript, with types for TypeScript, and prints the name of its file. It contains browser.js, which uses nothing of node, for bundlers for
# browsers. The package is reproducible: its bytes depend only on these files, esbuild, and tsc.
set -euo pipefail
umask 022
library=$(realpath "$1")
cdscript=$(realpath "$2")
version=$3
directory=$(realpath "$4")
cd "$(dirname "$0")/.."
scratch=$(mktemp -d)
trap 'rm -rf "$scratch"' EXIT
mkdir "$scratch/package"
python3 -B tools/strip.py
# joined OUT WORD..: bundles the interface and the core into one file.
joined() {
    esbuild out/web/npm/cdpatch.js --bundle --format=esm --platform=neutral --target=es2022 --charset=utf8 --keep-names \
        --legal-comments=none --log-level=warning --outfile="$scratch/package/$1" "$2"
}
joined cdpatch.js --external:node:fs/promises
joined browser.js --alias:node:fs/promises=./out/web/npm/no_files.js
tsc --strict --declaration --emitDeclarationOnly --target es2022 --module es2022 --moduleResolution node --lib es2022,dom \
    --outDir "$scratch/types" web/npm/cdpatch.ts web/npm/node.d.ts web/core/jobs/jobs.ts
mkdir -p "$scratch"/package/types/{npm,core}
cp "$scratch"/types/npm/{cdpatch,errors}.d.ts "$scratch/package/types/npm"
cp -r "$scratch/types/core/module" "$scratch/package/types/core"
cp web/npm/README.md web/npm/example.html docs/MODULES.md "$library"/{cdpatch.wasm,NOTICES} "$scratch/package"
echo 'declare const bytes: Uint8Array; export default bytes;' > "$scratch/package/cdpatch.wasm.d.ts"
[ ! -f LICENSE ] || cp LICENSE "$scratch/package"
# npm starts a command by its first line on all systems.
{ echo '#!/usr/bin/env node'; sed "1,/^\*\/;$/d" "$cdscript"; } > "$scratch/package/cdscript.cjs"
chmod +x "$scratch/package/cdscript.cjs"
# `npm publish` refuses a private package.
cat > "$scratch/package/package.json" << END
{
    "name": "cdpatch",
    "version": "$version",$([ -f LICENSE ] || printf '\n    "private": true,')
    "description": "Patches raw CD images and leaves each sector valid: EDC and P/Q parity, proved",
    "type": "module",
    "engines": { "node": ">=18" },
    "exports": {
        ".": { "types": "./types/npm/cdpatch.d.ts", "browser": "./browser.js", "default": "./cdpatch.js" },
        "./cdpatch.wasm": { "types": "./cdpatch.wasm.d.ts", "default": "./cdpatch.wasm" },
        "./package.json": "./package.json"
    },
    "types": "./types/npm/cdpatch.d.ts",
    "bin": { "cdscript": "cdscript.cjs" },
    "license": "$([ -f LICENSE ] && sed -n 's/^licence: *//p' tools/owner.txt || echo UNLICENSED)"
}
END
chmod -R u=rwX,go=rX "$scratch/package"
name=cdpatch-$version.tgz
tar -C "$scratch" --format=ustar --sort=name --mtime="@${SOURCE_DATE_EPOCH:-0}" --owner=0 --group=0 --numeric-owner -cf - package |
    gzip -9n > "$directory/$name"
echo "$name"
