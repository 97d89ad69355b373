# Compares the calls of the builds and of the WebAssembly module, passes null pointers to the module, and tests its page. tests/library/run
# sources this file.

module=$top/library/cdpatch.wasm
random_calls=20000

# recorded LIBRARY: prints the records of random calls of a build.
recorded() { LD_LIBRARY_PATH=${1%/*} ./random_calls 1 $random_calls; }

# Whether the module gives the same results for all recorded calls, and each call occurs at least 100 times.
replays() {
    node "$tests/library/replay.mjs" "$module" < records > replayed || { cat replayed; false; } &&
        [ -z "$(grep ', ' replayed | head -n 1 | tr ',' '\n' | awk '$2 < 100')" ]
}

test_random_calls() {
    local build
    compiler gcc 'gcc and libc6-dev' || return
    judge 'random_calls.c compiles without a warning' gcc -std=c99 -O2 "${strict[@]}" "$tests/library/random_calls.c" "${builds[0]}" \
        -o random_calls
    recorded "${builds[0]}" > records
    for build in "${builds[@]:1}"; do
        judge "$random_calls random calls by $build" cmp -s records <(recorded "$build")
    done
    judge "$random_calls random calls by the WebAssembly module" holds replays
    judge 'null pointers for no bytes in the module' holds node "$tests/library/nulls.mjs" "$module"
}

# runs_the_example: whether the example in docs/MODULES.md gives the same result as tests/model for a sound sector.
runs_the_example() {
    mkdir -p example
    sed -n '/^```js$/,/^```$/{/^```/d;p}' "$top/docs/MODULES.md" > example/client.mjs
    cp "$vectors" example/disc.bin
    cp "$module" example
    (cd example && node client.mjs) > said && [ "$(cat said)" = "$(printf 'sound\n%s' "$(edc_of_first_sector)")" ]
}
edc_of_first_sector() { od -An -tx4 -j 2064 -N 4 "$vectors" | tr -d ' ' | sed 's/^0*//'; }

# has_the_structs: whether the compiler lays out each struct of the header as docs/MODULES.md states, by which clients read it.
has_the_structs() {
    {
        echo '#include <cdpatch.h>'
        sed -nE 's/^\| `(cdpatch_[a-z0-9_]+)` \| ([0-9]+) \| (.*) \|$/\1 \2 \3/p' "$top/docs/MODULES.md" | tr -d '`,' |
            awk '{ print "_Static_assert(sizeof(struct " $1 ") == " $2 ", \"size\");"
                for (i = 3; i < NF; i += 2) print "_Static_assert(offsetof(struct " $1 ", " $i ") == " $(i + 1) ", \"" $i "\");" }'
    } > structs.c
    [ "$(grep -c sizeof structs.c)" = "$(grep -c '^struct .*{' "$header")" ] && gcc -std=c11 -I "$top/include" -c structs.c -o structs.o
}

test_page_of_modules() {
    judge 'the example of docs/MODULES.md runs' runs_the_example
    compiler gcc 'gcc and libc6-dev' || return
    judge 'it has the structs as the compiler lays them out' holds has_the_structs
}

# has_the_numbers NUMBERS: whether the compiler gives each enumerator, struct, and field of the header the number in NUMBERS.
has_the_numbers() {
    node "$tests/library/numbers.mjs" "$1" > numbers.c && gcc -std=c11 -I "$top/include" -c numbers.c -o numbers.o &&
        [ -z "$(comm -23 <(enumerators) <(grep -oE 'CDPATCH_\w+' numbers.c | sort -u))" ] &&
        [ "$(grep -c sizeof numbers.c)" = "$(grep -c '^struct .*{' "$header")" ]
}
enumerators() {
    sed -n '/^enum .*{/{:more;/};/!{N;b more};p}' "$header" | grep -oE '\bCDPATCH_\w+' | sort -u
}

# numbers_of_header: generates the numbers of the header in `made`.
numbers_of_header() { rm -rf made && mkdir -p made/include && cp "$header" made/include && python3 -B "$top/tools/header.py" numbers made; }

# The numbers for JavaScript and Python are generated from the header, so only the generator can be wrong.
test_numbers() {
    compiler gcc 'gcc and libc6-dev' || return
    judge 'the numbers for JavaScript and Python are made of the header' numbers_of_header
    judge 'those for JavaScript are the numbers of the header, and a compiler lays the structs out so' holds has_the_numbers \
        made/web/core/module/numbers.ts
}

test_modules() {
    test_random_calls
    test_page_of_modules
    test_numbers
}
