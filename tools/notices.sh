#!/usr/bin/env bash
# `tools/notices.sh OUT` writes the licence notices of the toolchain's crates that the program, the library, and the modules contain. Their
# licences require them in each copy. It reads crates.txt, and the licences in the directories of the crates.
set -euo pipefail
crates=$(dirname "$(rt doc)")/rattle
cd "$(dirname "$0")/.."

# ported_crates: prints the crates that crates.txt names and does not define.
ported_crates() {
    local name words word own=' ' named=''
    while IFS=: read -r name words; do
        own+="${name%% *} "
        named+=" $words"
    done < <(sed 's/#.*//' crates.txt)
    for word in $named; do
        [[ $own == *" $word "* ]] || echo "$word"
    done | sort -u
}

# licence_of CRATE: prints its licence, MIT if there is a choice, and the texts that must accompany it.
licence_of() {
    local file found=''
    for file in "$crates/$1"/LICENSE-MIT "$crates/$1"/LICENSE "$crates/$1"/LICENSE-UNICODE; do
        [ -f "$file" ] || continue
        [ -z "$found" ] || echo
        found=yes
        cat "$file"
    done
    [ -n "$found" ] || { echo "tools/notices.sh: $1 has no licence" >&2; return 1; }
}

{
    echo 'cdpatch contains these crates. The notices are those of their authors.'
    for crate in $(ported_crates); do
        text=$(licence_of "$crate")
        printf '\n== %s ==\n\n%s\n' "$crate" "$text"
    done
} > "$1"
