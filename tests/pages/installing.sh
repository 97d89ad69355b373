# Tests `make install` and `make uninstall`: for a package, below other directories, and with nothing built.

# built WORD..: runs make in `tree`, which has the built files.
built() { make --no-print-directory -s -C tree "$@"; }
files() { [ ! -d "$1" ] || (cd "$1" && find . ! -type d | LC_ALL=C sort); }

# lacking: prints the man pages of calls and the modules of the package for Python that are not installed.
lacking() {
    { sed -n 's/^[a-z].* \(cdpatch_[a-z0-9_]*\)(.*/.\/share\/man\/man3\/\1.3/p' "$top/include/cdpatch.h"
        (cd "$top/python/cdpatch" && printf './share/cdpatch/python/cdpatch/%s\n' *.py py.typed); } | LC_ALL=C sort |
        LC_ALL=C comm -23 - <(files root/usr)
}

# The places of installed files, which must have the bytes of the built files.
has_what_was_built() {
    while read -r path source <&3; do
        judge "$path is $source" cmp -s "$source" "root/usr/$path"
    done 3<< END
bin/cdpatch $program
bin/cdscript $top/cdscript
include/cdpatch.h $top/include/cdpatch.h
lib/libcdpatch.a $library/libcdpatch.a
lib/libcdpatch.so $library/libcdpatch.so.2
lib/glibc-hwcaps/x86-64-v3/libcdpatch.so.2 $library/x86-64-v3/libcdpatch.so.2
share/cdpatch/cdpatch.html $top/cdpatch.html
share/cdpatch/cdpatch.wasm $library/cdpatch.wasm
share/doc/cdpatch/CHANGELOG.md $top/CHANGELOG.md
share/doc/cdpatch/NOTICES $library/NOTICES
share/doc/cdpatch/examples/audit.c $top/examples/audit.c
share/cdpatch/python/backend.py $top/python/backend.py
share/bash-completion/completions/cdpatch $completions/cdpatch.bash
share/bash-completion/completions/cdscript $completions/cdscript.bash
share/fish/vendor_completions.d/cdpatch.fish $completions/cdpatch.fish
share/fish/vendor_completions.d/cdscript.fish $completions/cdscript.fish
share/zsh/site-functions/_cdpatch $completions/_cdpatch
share/zsh/site-functions/_cdscript $completions/_cdscript
END
}

# The files in which places and the version are filled in.
is_filled_in() {
    local cdpatch_version
    cdpatch_version=$(cdpatch --help | sed -n '$s/cdpatch //p')
    printf '%s\n' prefix=/usr 'libdir=${prefix}/lib' 'includedir=${prefix}/include' '' 'Name: cdpatch' \
        'Description: EDC and P/Q parity of CD-ROM sectors, and patches of CD images' \
        "Version: $cdpatch_version" 'Libs: -L"${libdir}" -lcdpatch' 'Cflags: -I"${includedir}"' > cdpatch.pc
    sed -e 's|@libraries@|../..|' -e 's|@includes@|../../../include|' "$top/include/cdpatch-config.cmake.in" > cdpatch-config.cmake
    sed "s|@version@|$cdpatch_version|" "$top/include/cdpatch-config-version.cmake.in" > cdpatch-config-version.cmake
    judge 'cdpatch.pc has the places and the version' cmp cdpatch.pc root/usr/lib/pkgconfig/cdpatch.pc
    judge 'so have the files for CMake' eval 'for file in cdpatch-config{,-version}.cmake; do cmp $file root/usr/lib/cmake/cdpatch/$file || exit; done'
    judge 'the pages name the places of this installation' eval '! grep -rnE "/usr/local/share/(doc|cdpatch)" root/usr/share/doc root/usr/share/man'
    judge 'INSTALL is installed without the parts for the sources' eval 'grep -q "^<!-- sources" "$top/docs/INSTALL.md" &&
        ! grep -qE "make check|<!--" root/usr/share/doc/cdpatch/docs/INSTALL.md'
    judge 'below /usr/local the pages are as they stand in the sources' eval 'built install DESTDIR="$PWD/plain" &&
        cmp plain/usr/local/share/man/man3/libcdpatch.3 "$top/man/libcdpatch.3" && cmp plain/usr/local/share/doc/cdpatch/docs/MODULES.md "$top/docs/MODULES.md"'
}

installed_for_a_package() {
    judge 'make install' built install DESTDIR="$PWD/root" PREFIX=/usr
    judge "it installs a man page for each call, and each module for Python: $(lacking | paste -sd ' ')" test -z "$(lacking)"
    has_what_was_built
    is_filled_in
    judge 'the installed program runs' test "$(root/usr/bin/cdpatch list disc.bin | tail -n 1)" = 'sectors 8 tail 0'
    judge 'programs may be run by all, and the rest may be read by all' eval \
        '[ -z "$(find root/usr/bin -type f ! -perm 755)$(find root -type f ! -path "*/bin/*" ! -perm 644)$(find root -type d ! -perm 755)" ]'
    judge 'the page of each call is a link to that of the library' test "$(readlink root/usr/share/man/man3/cdpatch_apply_patch.3)" = libcdpatch.3
    judge 'the link of the library stands next to it' test "$(readlink root/usr/lib/libcdpatch.so)" = libcdpatch.so.2
    for crate in arrayvec bstr byteorder clap hex itoa memchr sha1 thiserror; do
        judge "the notices have $crate's" \
            test "$(sed -n "/^== $crate ==\$/,/^== /p" root/usr/share/doc/cdpatch/NOTICES | grep -c '^Permission is hereby granted')" -gt 0
    done
    local made
    echo kept > victim
    for made in lib/pkgconfig/cdpatch.pc lib/cmake/cdpatch/cdpatch-config{,-version}.cmake share/doc/cdpatch/docs/INSTALL.md; do
        ln -sf "$PWD/victim" "root/usr/$made"
    done
    built install DESTDIR="$PWD/root" PREFIX=/usr
    judge 'what a link there names is not written over' test "$(cat victim)" = kept -a \
        -z "$(find root -type l ! -lname 'libcdpatch.*')"
    used_by_python
    touch root/usr/bin/another
    judge 'make uninstall' built uninstall DESTDIR="$PWD/root" PREFIX=/usr
    judge 'it leaves what others installed, and no more' test "$(files root)" = ./usr/bin/another
    judge 'of the directories it removes those of cdpatch, and no others' test "$(find root -type d | sort)" = "$(grep -v /cdpatch directories)"
    judge 'make uninstall of nothing' built uninstall DESTDIR="$PWD/root" PREFIX=/usr
}

# Python keeps compiled files there: of the package when a program imports it, and of the builder of its wheel when pip installs it.
used_by_python() {
    local package=root/usr/share/cdpatch/python
    find root -type d | sort > directories
    judge 'Python keeps what it compiles of the package' eval 'kept_by_python $package "import cdpatch" && [ -d $package/cdpatch/__pycache__ ]'
    missing pip3 python3-pip 'an uninstall after pip was used' && return
    env -u PYTHONDONTWRITEBYTECODE -u PYTHONPYCACHEPREFIX pip3 --disable-pip-version-check install --no-index --quiet --target site \
        "$package" > log 2>&1
    judge 'pip installs the package, and leaves what makes its wheel compiled' eval "[ -f site/cdpatch/_numbers.py ] && [ -d $package/__pycache__ ]"
}

# A root in which the directories below the prefix belong to others, such as Debian's base-files.
uninstalled_among_others() {
    mkdir -p others/usr/share/{man/man1,zsh/site-functions} others/usr/lib/{pkgconfig,cmake} others/python/__pycache__
    find others | sort > others.before
    built install DESTDIR="$PWD/others" PREFIX=/usr pythondir=/python
    touch others/python/__pycache__/another.cpython-311.pyc
    built uninstall DESTDIR="$PWD/others" PREFIX=/usr pythondir=/python
    judge 'make uninstall leaves what others compiled beside the package' rm others/python/__pycache__/another.cpython-311.pyc
    judge 'it leaves empty directories that were there' test -z "$(find others | sort | comm -13 - others.before)"
    judge 'and none that is called cdpatch' test -z "$(find others -name '*cdpatch*')"
}

installed_elsewhere() {
    local file
    built install DESTDIR="$PWD/local"
    judge 'without PREFIX into /usr/local' test -x local/usr/local/bin/cdpatch
    built uninstall DESTDIR="$PWD/local"
    judge 'and away again' test -z "$(files local)"
    local odd="with space & a|b\\c's" places
    places=(prefix="$PWD/$odd" bindir="$PWD/$odd/sbin" zshcompdir="$PWD/zsh")
    built install "${places[@]}"
    judge 'prefix, and places by their names' test -x "$odd/sbin/cdpatch" -a -f zsh/_cdpatch
    judge 'cdpatch.pc has that prefix' test "$(head -n 1 "$odd/lib/pkgconfig/cdpatch.pc")" = "prefix=$PWD/$odd"
    built uninstall "${places[@]}"
    judge 'and away from there' test -z "$(files "$odd")$(files zsh)"
    built install PACKAGE=nosuch DESTDIR="$PWD/none" 2> log
    judge 'an unknown package is refused, and the known ones are listed' test $? != 0 -a ! -e none -a -n \
        "$(grep '^unknown PACKAGE nosuch: the packages are cdpatch cdscript libcdpatch-dev libcdpatch2 python3-cdpatch$' log)"
    built install DESTDIR="$PWD/none/" PREFIX=inst 2> log
    judge 'a PREFIX that does not begin with / is refused' test $? != 0 -a ! -e none -a -n "$(grep 'PREFIX must begin with /' log)"
    for file in cdpatch library completions; do
        mv "tree/$file" away
        built install DESTDIR="$PWD/none" 2> log
        judge "without $file nothing is installed, and it is named" test $? != 0 -a ! -e none -a -n "$(grep "^There is no $file" log)"
        mv away "tree/$file"
    done
}

enter installing
staged tree
installed_for_a_package
uninstalled_among_others
installed_elsewhere
