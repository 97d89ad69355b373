# Shared by the tests of this directory: a scratch directory, the program on the path, and the counts.

. "$top/tests/lib/judging.sh"
mkdir "$scratch/bin"
ln -s "$program" "$scratch/bin/cdpatch"
PATH=$scratch/bin:$PATH
export HOME=$scratch
library=$top/library
completions=$top/completions
programs=("$program" "$top/cdscript")
ln -s "$top/cdscript" "$scratch/bin/cdscript"

# help_of JOB: prints help of a job of cdscript, or of cdscript if JOB is empty. Runs cdscript only once for each.
help_of() {
    local kept=$scratch/help_of_$1
    [ -e "$kept" ] || cdscript ${1:+"$1"} --help > "$kept"
    cat "$kept"
}
jobs_of_cdscript() { help_of '' | sed -n '/^Jobs:/,/^$/s/^  \([a-z-]*\) .*/\1/p'; }

# same NAME WANTED GOT: judges whether two files are equal, and prints their differences.
same() {
    if cmp -s "$2" "$3"; then
        judge "$1" true
    else
        judge "$1" false
        diff "$2" "$3" | head -n 20
    fi
}

# kept_by_python DIRECTORY CODE: runs Debian's Python with the package in a directory. Python keeps its compiled files, as it does for a
# user.
kept_by_python() {
    env -u PYTHONDONTWRITEBYTECODE -u PYTHONPYCACHEPREFIX CDPATCH_LIBRARY="$library/libcdpatch.so.2" PYTHONPATH="$1" /usr/bin/python3 -c "$2"
}

# enter NAME: creates and enters a directory with the image of eight sectors, and links to the crates.
enter() {
    mkdir "$scratch/$1"
    cd "$scratch/$1" || exit 1
    cp "$top/crates/cd_low_tests/data/cdrkit-8.bin" disc.bin
    ln -s "$top/crates" crates
    ln -s "$program" cdpatch
}

# staged DIRECTORY: creates a tree of links to the sources and to the built files.
staged() {
    mkdir "$1"
    ln -s "$top"/* "$1"
    ln -sf "$program" "$1/cdpatch"
}
# copied DIRECTORY: copies the files that `make dist` packs, as a checkout if git is installed.
copied() {
    mkdir -p "$1"
    (cd "$top" && cp -r --parents .gitignore Makefile install.mk dist.list README.md CHANGELOG.md debian docs man examples include python tools \
        web cdscript cdpatch.html library completions "$1")
    cp "$program" "$1/cdpatch"
    ! command -v git > /dev/null || (cd "$1" && git init -q && git add . && git -c user.name=a -c user.email=a@localhost commit -qm all)
}
# dist DIRECTORY [WORD..]: runs `make dist` there.
dist() { make --no-print-directory -s -C "$1" dist distdir=made "${@:2}"; }
# packed: creates `packed/made` with the tarball and the packages, once for all suites of a run, `packed/printed` with the output, and
# `packed/errors`.
packed() {
    local shared=${SHARED:-$scratch}/packed
    if mkdir "$shared" 2> "$scratch/log"; then
        copied "$shared" && dist "$shared" > "$shared/made.log" 2> "$shared/errors"
        mv "$shared/made.log" "$shared/printed"
    fi
    until [ -e "$shared/printed" ]; do sleep 0.5; done
    [ -e "$scratch/packed" ] || ln -s "$shared" "$scratch/packed"
}

# The shell and the awk for the examples: the simplest that are installed.
mkdir "$scratch/plain"
ln -s "$(command -v mawk || command -v awk)" "$scratch/plain/awk"
missing mawk mawk 'the examples by mawk'
plain="sh"
missing dash dash 'the examples in dash' || plain="dash"

# The crates that are libraries of this repository; and below, the source files of a crate, without tests.
static_crates=(cd_c cd_c_scripts)
library_crates=(cd_address cd_code cd_lanes cd_sector cd_repair cd_delta cd_script cd_patch cd_line cd_run cd_stream cd_read cd_report cd_image cd_args cd_host cd_program cd_memory)
sources() { find "$top/crates/$1/src" -name tests -prune -o -name '*.rt' ! -name tests.rt -print; }
