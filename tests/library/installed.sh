# Tests clients of the installed library. tests/library/run defines the other functions.

# with_package PREFIX COMMAND..: runs a command that can find the installed package.
with_package() {
    local prefix=$1
    shift
    PKG_CONFIG_PATH=$prefix/lib/pkgconfig LD_LIBRARY_PATH=$prefix/lib "$@"
}

# Installs the library below root/usr as a package does, without the toolchain, from a tree of links to the sources and to the built files.
install_tree() {
    mkdir tree
    ln -s "$top"/* tree
    ln -sf "$program" tree/cdpatch
    install_once_more DESTDIR="$PWD/root" PREFIX=/usr
    documents=$PWD/root/usr/share/doc/cdpatch
}

# install_once_more VARIABLE=VALUE..: installs the library with these variables of make.
install_once_more() { PATH=/usr/bin:/bin make --no-print-directory -s -C tree install "$@"; }

# compiles_below_a_space: whether ten_lines.c compiles with the flags of pkg-config below a prefix with a space.
compiles_below_a_space() {
    local flags
    install_once_more prefix="$PWD/with space" || return
    flags=$(with_package "$PWD/with space" pkg-config --cflags --libs cdpatch)
    eval "gcc -std=c99 \"\$tests/library/ten_lines.c\" $flags -o ten_lines_below" 2> errors &&
        [ "$(with_package "$PWD/with space" ./ten_lines_below)" = '5F0017BC 1' ]
}

# compiles_as_said PREFIX LIBDIR NUMBER: whether ten_lines.c compiles with the NUMBERth command for pkg-config in INSTALL, with
# PREFIX in place of `moved`, and prints the right result.
compiles_as_said() {
    local command
    command=$(grep -E '^    cc .*pkg-config' "$documents/docs/INSTALL.md" | sed -n "$3p")
    rm -f a.out
    cp "$tests/library/ten_lines.c" program.c
    ln -sfn "$1" moved_link
    PKG_CONFIG_PATH=$2/pkgconfig sh -c "${command//moved/moved_link}" 2> errors && [ "$(LD_LIBRARY_PATH=$2 ./a.out)" = '5F0017BC 1' ]
}

# As in Debian, the directory of libraries is two levels below the prefix, which was moved.
test_moved_deeper() {
    local deep="$PWD/deep/usr"
    install_once_more DESTDIR="$PWD/deep" PREFIX=/usr libdir=/usr/lib/some-triplet
    judge 'pkg-config with the new prefix, as INSTALL says' compiles_as_said "$PWD/root/usr" "$PWD/root/usr/lib" 2
    judge 'and with a deeper directory of libraries' compiles_as_said "$deep" "$deep/lib/some-triplet" 2
}

# is_linked_statically: whether the last compiled program does not need libcdpatch.so.2.
is_linked_statically() { readelf -d a.out > log && ! grep -q libcdpatch log; }

test_static() {
    install_once_more prefix="$PWD/plain"
    judge 'the static library by pkg-config, as INSTALL says' compiles_as_said "$PWD/plain" "$PWD/plain/lib" 1
    judge 'it is the static one' is_linked_statically
    judge 'libcdpatch(3) says the same' test "$(sed -n '/^cc program/{N;s/ \\e\n */ /;s/^/    /p}' "$top/man/libcdpatch.3")" = \
        "$(grep '^    cc .*pkg-config' "$documents/docs/INSTALL.md")"
}

test_pkg_config() {
    local flags moved="$PWD/moved" said
    read -ra flags < <(with_package "$PWD/root/usr" pkg-config --define-prefix --cflags --libs cdpatch)
    judge 'pkg-config --define-prefix follows the files' test "${flags[*]}" = "-I$PWD/root/usr/include -L$PWD/root/usr/lib -lcdpatch"
    gcc -std=c99 "$tests/library/ten_lines.c" "${flags[@]}" -o ten_lines 2> errors
    # The EDC that tests/model computes.
    judge 'ten lines by pkg-config' test "$(with_package "$PWD/root/usr" ./ten_lines)" = '5F0017BC 1'
    read -ra flags < <(PKG_CONFIG_SYSROOT_DIR=$PWD/root PKG_CONFIG_ALLOW_SYSTEM_CFLAGS=1 PKG_CONFIG_ALLOW_SYSTEM_LIBS=1 with_package \
        "$PWD/root/usr" pkg-config --cflags --libs cdpatch)
    judge 'pkg-config below another root' test "${flags[*]}" = "-I$PWD/root/usr/include -L$PWD/root/usr/lib -lcdpatch"
    said=$(with_package "$PWD/root/usr" pkg-config --modversion cdpatch)
    judge 'its version is that of the program' test "$said" = "$("$program" --help | sed -n '$s/cdpatch //p')"
    cp -r root/usr "$moved"
    said=$(with_package "$moved" pkg-config --define-prefix --variable=libdir cdpatch)
    judge 'pkg-config finds what was moved' test "$said" = "$moved/lib"
    judge 'pkg-config below a prefix with a space' compiles_below_a_space
    [ ${#builds[@]} = 1 ] || judge 'the loader takes the build for x86-64-v3' \
        grep -q '/glibc-hwcaps/x86-64-v3/' <(LD_TRACE_LOADED_OBJECTS=1 with_package "$PWD/root/usr" ./ten_lines)
}

# cmake_takes VERSION: whether find_package accepts the installed library for this version, and its clients run.
cmake_takes() {
    rm -rf built
    cmake -S "$tests/library/cmake" -B built -DWANTED="$1" -DCMAKE_PREFIX_PATH="$PWD/moved" > cmake.log 2>&1 &&
        cmake --build built >> cmake.log 2>&1 && [ "$(built/shared)" = '5F0017BC 1' ] && [ "$(built/static)" = '5F0017BC 1' ]
}

# unsuitable BYTES: prints whether the version file refuses programs with pointers of this many bytes.
unsuitable() {
    printf '%s\n' "set(CMAKE_SIZEOF_VOID_P $1)" "include($PWD/moved/lib/cmake/cdpatch/cdpatch-config-version.cmake)" 'set(answer no)' \
        'if(PACKAGE_VERSION_UNSUITABLE)' 'set(answer yes)' 'endif()' 'message(${answer})' > ask.cmake
    cmake -P ask.cmake 2>&1
}

test_cmake() {
    local cdpatch_version major before
    missing cmake cmake 'find_package of an installed library' && return
    cdpatch_version=$("$program" --help | sed -n '$s/cdpatch //p')
    major=${cdpatch_version%%.*}
    before=$((major - 1))
    judge 'find_package(cdpatch)' cmake_takes ''
    judge 'find_package of the first version with its first number' cmake_takes "$major.0"
    judge 'find_package of a later one' refuses cmake_takes "$major.99"
    judge 'find_package of another first number' refuses cmake_takes "$before.9"
    judge 'find_package of a range' cmake_takes "$major.0...$major.99"
    judge 'find_package of a range that ends with it' cmake_takes "$before.0...$cdpatch_version"
    judge 'find_package of a range that ends before it' refuses cmake_takes "$before.0...$before.9"
    judge 'find_package of a range that ends just before it' refuses cmake_takes "$before.0...<$cdpatch_version"
    judge 'find_package of a range after it' refuses cmake_takes "$major.98...$major.99"
    judge 'find_package for 32-bit pointers' test "$(unsuitable 8) $(unsuitable 4)" = 'no yes'
}

# rust_as_program IMAGE: whether examples/damaged.rs prints the blocks for which `cdpatch audit` prints more than the address.
rust_as_program() {
    local status=0
    with_package "$PWD/root/usr" ./damaged_blocks < "$1" > log || status=$?
    "$program" audit "$1" | sed -nE 's/^([0-9]+)( address)? (zeros|edc|p=|q=).*/\1/p' > wanted
    cmp -s log wanted && [ "$status" = "$([ -s wanted ] && echo 1 || echo 0)" ]
}

rust_to_full() { with_package "$PWD/root/usr" ./damaged_blocks < damaged > /dev/full; }

test_clients() {
    local flags
    read -ra flags < <(with_package "$PWD/root/usr" pkg-config --define-prefix --cflags --libs cdpatch)
    gcc -std=c99 -O2 "$documents/examples/patch_pipe.c" "${flags[@]}" -o installed_pipe 2> errors
    with_package "$PWD/root/usr" ./installed_pipe stable < "$vectors" > out 2> log
    "$program" apply "$vectors" stable wanted_of_c > wanted
    judge 'a client in C' eval 'cmp -s out wanted_of_c && cmp -s log wanted'
    if compiler g++ g++; then
        g++ -O2 "$tests/library/client.cpp" "${flags[@]}" -o client_in_c_plus 2> errors
        judge 'a client in C++' eval 'with_package "$PWD/root/usr" ./client_in_c_plus < damaged | cmp -s - <("$program" list damaged)'
    fi
    if ! missing rustc rustc 'a client in Rust'; then
        read -ra flags < <(with_package "$PWD/root/usr" pkg-config --define-prefix --libs cdpatch)
        rustc -O "$documents/examples/damaged.rs" "${flags[@]}" -o damaged_blocks 2> errors
        judge 'a client in Rust has damaged blocks' rust_as_program damaged
        judge 'it has none in a sound image' rust_as_program "$vectors"
        judge 'it fails on a full standard output' ends_with 2 rust_to_full
    fi
}

# python_as_program COMMAND..: whether the package that this Python finds audits as the program does.
python_as_program() {
    "$@" -B -c 'import cdpatch, sys; print(cdpatch.audit(open(sys.argv[1], "rb").read()).text, end="")' damaged |
        cmp -s - <("$program" audit damaged)
}

test_python_client() {
    local python=/usr/bin/python3
    [ -x "$python" ] || python=python3
    missing "$python" python3 'a client in Python' && return
    judge 'a client in Python, by its path' python_as_program env PYTHONPATH=root/usr/share/cdpatch/python "$python"
    if ! "$python" -m pip --version > log 2>&1; then
        skip "the Python package by pip, which wants pip (Debian's package python3-pip)"
        return
    fi
    judge 'pip installs it without a network' holds "$python" -m pip --disable-pip-version-check install --no-index --quiet \
        --target site root/usr/share/cdpatch/python
    judge 'a client in Python, by pip' python_as_program env PYTHONPATH=site LD_LIBRARY_PATH=root/usr/lib "$python"
    judge 'pip knows its version' test "$(PYTHONPATH=site "$python" -m pip list --path site 2> errors | sed -n 's/^cdpatch  *//p')" = \
        "$("$program" --help | sed -n '$s/cdpatch //p')"
    test_wheel "$python"
    test_sdist "$python"
    test_editable "$python"
}

# wheel PYTHON PROJECT: builds a wheel of a project in `wheels`.
wheel() { rm -rf wheels && "$1" -m pip --disable-pip-version-check wheel --no-index --quiet --wheel-dir wheels "$2"; }

# has_what_a_wheel_must PYTHON: whether the wheel in `wheels` is for this system, and has the notices and the metadata that an index shows.
has_what_a_wheel_must() {
    rm -rf contents
    "$1" -m zipfile -e wheels/cdpatch-*-py3-none-manylinux_2_34_x86_64.whl contents &&
        cmp -s library/NOTICES contents/cdpatch-*.dist-info/licenses/NOTICES && [ -e contents/cdpatch/libcdpatch.so.2 ] &&
        grep -qx 'Root-Is-Purelib: false' contents/*.dist-info/WHEEL &&
        [ "$(sed -nE '/^$/q; s/^(Author|Classifier|License-File|Description-Content-Type): .*/\1/p' contents/*.dist-info/METADATA | uniq |
            paste -sd ' ')" = 'Author Classifier License-File Description-Content-Type' ] &&
        grep -q '^    import cdpatch$' contents/*.dist-info/METADATA
}

test_wheel() {
    local python=$1
    cp -r root/usr/share/cdpatch/python bare
    rm bare/cdpatch/_numbers.py
    judge 'a wheel without the numbers of the header is refused' refuses wheel "$python" ./bare
    cp -r root/usr/share/cdpatch/python bundle
    cp library/libcdpatch.so.2 bundle/cdpatch
    judge 'a wheel with the library and no notices is refused' refuses wheel "$python" ./bundle
    cp library/NOTICES bundle/cdpatch
    judge 'a wheel with its library' holds wheel "$python" ./bundle
    judge 'it is for this system only, with the notices' has_what_a_wheel_must "$python"
    "$python" -m pip --disable-pip-version-check install --no-index --quiet --target site2 wheels/*.whl > log 2>&1
    judge 'a client in Python, by that wheel' python_as_program env PYTHONPATH=site2 "$python"
}

# says_what_it_needs DIRECTORY: whether a source archive unpacked there has no library, and says that it needs one.
says_what_it_needs() {
    [ -z "$(find "$1" -name 'libcdpatch*' -o -name NOTICES)" ] && grep -qx 'Requires-External: libcdpatch (>=[0-9.]*)' "$1"/*/PKG-INFO &&
        grep -q '^This distribution has no library\.' "$1"/*/PKG-INFO
}

test_sdist() {
    local python=$1
    mkdir sdist
    judge 'an archive of the sources' eval '(cd bundle && "$python" -B -c "import backend; backend.build_sdist(\"../sdist\")")'
    judge 'pip makes a package of it' holds "$python" -m pip --disable-pip-version-check install --no-index --quiet --target site3 sdist/*.tar.gz
    judge 'which works with an installed library' python_as_program env PYTHONPATH=site3 LD_LIBRARY_PATH=root/usr/lib "$python"
    judge 'and names it if there is none' eval '! env -u CDPATCH_LIBRARY PYTHONPATH=site3 "$python" -B -c "import cdpatch" 2> log &&
        grep -q "ImportError: cdpatch cannot load its library: libcdpatch.so.2" log'
    tar -C sdist -xzf sdist/*.tar.gz
    judge 'it says what it needs' says_what_it_needs sdist
}

# An editable package is the package in its directory.
test_editable() {
    local python=$1
    cp -r root/usr/share/cdpatch/python edited
    "$python" -m venv --system-site-packages --without-pip venv > log 2>&1 || return
    judge 'pip installs it to be edited' holds venv/bin/python -m pip --disable-pip-version-check install --no-index --no-build-isolation \
        --quiet -e ./edited
    sed -i "s/^KINDS: .*/KINDS = ('edited',)/" edited/cdpatch/_sectors.py
    judge 'and what is edited is taken' eval "[ \"\$(LD_LIBRARY_PATH=root/usr/lib venv/bin/python -B -c 'import cdpatch; print(*cdpatch.KINDS)')\" = edited ]"
}

test_installed() {
    compiler gcc 'gcc and libc6-dev' || return
    test_forgotten_results
    install_tree
    test_python_client
    missing pkg-config pkg-config 'pkg-config of an installed library' && return
    test_pkg_config
    test_static
    test_moved_deeper
    test_cmake
    test_clients
}
