#!/usr/bin/env bash
# `tools/library.sh DIRECTORY` links libcdpatch from the static libraries that tools/prove.py has built: it writes libcdpatch.a,
# libcdpatch.so.2, and NOTICES to DIRECTORY, and the shared library for x86-64-v3 to a directory of that name in it. It uses the toolchain's
# own archiver, linker, and C library.
set -euo pipefail
mkdir -p "$1/x86-64-v3"
directory=$(realpath "$1")
cd "$(dirname "$0")/.."
mapfile -t crates < <(sed -n 's/ staticlib:.*//p' crates.txt)
kit=$(rt doc)
kit=$(dirname "$kit")
scratch=$(mktemp -d)
trap 'rm -rf "$scratch"' EXIT

# objects SUFFIX DIRECTORY: creates a directory with the objects of the crates built with this suffix.
objects() {
    local name
    mkdir "$2"
    for name in "${crates[@]}"; do
        "$kit/toolchain/bin/llvm-ar" x --output "$2" "crates/$name/out/lib$name$1.a"
    done
}

# calls_of FILE..: prints the options by which the linker keeps the calls of these source files of cd_c.
calls_of() { (cd crates/cd_c/src && sed -n 's/^pub extern "C" fn \([a-z0-9_]*\).*/--undefined=\1/p' "$@"); }

# part OBJECTS: splits the object of cd_c into one for each source file with calls, together with the code that they call. A statically
# linked program gets only those that it needs. Files whose calls share most of their code remain together.
part() {
    local pair files calls alone
    mapfile -t alone < <(cd crates/cd_c/src && grep -l '^pub extern "C" fn' -- *.rt | grep -vxE '(changes|sectors|broken|surveying)\.rt')
    for pair in 'changes.rt sectors.rt' 'broken.rt surveying.rt' "${alone[@]}"; do
        read -ra files <<< "$pair"
        mapfile -t calls < <(calls_of "${files[@]}")
        "$kit/toolchain/bin/ld.lld" -r --gc-sections "${calls[@]}" "$1/cd_c.o" -o "$1/cd_c_${files[0]%.rt}.o"
    done
    rm "$1/cd_c.o"
}

# archive OBJECTS FILE: creates the static library.
archive() {
    rm -f "$2"
    "$kit/toolchain/bin/llvm-ar" rc "$2" "$1"/*.o
    chmod 644 "$2"
}

# note LEVELS FILE: creates an object with the note by which the loader (glibc 2.33 or later) refuses a library that needs more than the
# processor has: a bit for each level from x86-64 on. The linker would drop the note from a section with the usual name.
note() {
    printf '%s\n' '.section .note.processor, "a", @note' '.balign 8' '.long 4, 16, 5' '.asciz "GNU"' '.long 0xc0008002, 4' \
        ".long $1" '.long 0' | "$kit/toolchain/bin/clang" -c -x assembler - -o "$2"
}

# link OBJECTS LEVELS FILE: links a shared library that exports only the calls.
link() {
    note "$2" "$scratch/note.o"
    "$kit/toolchain/bin/ld.lld" -shared -soname libcdpatch.so.2 --version-script=tools/libcdpatch.map -z now -z noexecstack \
        --build-id=none --no-undefined "$scratch/note.o" "$1"/*.o "$kit/toolchain/lib/libc.so.6" -o "$3"
    chmod 644 "$3"
}

plain=$scratch/plain
fast=$scratch/fast
objects '' "$plain"
objects -x86-64-v3 "$fast"
link "$plain" 3 "$directory/libcdpatch.so.2"
link "$fast" 7 "$directory/x86-64-v3/libcdpatch.so.2"
part "$plain"
archive "$plain" "$directory/libcdpatch.a"
bash tools/notices.sh "$directory/NOTICES"
