#!/usr/bin/env bash
# Builds the files of a release from the files that `make` built in this tree: `tools/dist.sh DIRECTORY [KEY]`. DIRECTORY gets the tarball,
# in which `make install` works without a toolchain; cdscript as cdscript.js, which node runs on any system; the page; packages for Debian,
# pip, and npm; and the source packages of the first two. Each has its checksum and, with an ssh KEY, its signature. If `make windows` and
# `make arm64` were run, there are also an archive for Windows, and a tarball and packages for Debian and pip. It reports which packages it
# cannot build because a command is missing. The bytes depend only on those of the files and on the tools, not on the place, the
# time, or the user.
set -euo pipefail
umask 022
mkdir -p "$1"
directory=$(realpath "$1")
key=${2:+$(realpath "$2")}
cd "$(dirname "$0")/.."
version=$(sed -n 's/^## \([0-9.]*\) .*/\1/p' CHANGELOG.md | head -n 1)
export SOURCE_DATE_EPOCH=${SOURCE_DATE_EPOCH:-0} LC_ALL=C
scratch=$(mktemp -d)
trap 'rm -rf "$scratch"' EXIT
tree=$scratch/cdpatch-$version-x86_64-linux
made=()

# has WHAT COMMAND PACKAGE..: whether these commands are installed. If not, reports what is not built.
has() {
    local what=$1
    shift
    while [ $# != 0 ]; do
        command -v "$1" > /dev/null || { echo "There is no $1 (Debian's package $2), so $what not made." >&2; return 1; }
        shift 2
    done
}

# archive DIRECTORY FILE: writes a tar file of a directory, without names of users or times.
archive() {
    tar -C "$(dirname "$1")" --format=ustar --sort=name --mtime="@$SOURCE_DATE_EPOCH" --owner=0 --group=0 --numeric-owner --mode=u=rwX,go=rX \
        -cf - "$(basename "$1")" | gzip -9n > "$2"
}

release_tree() {
    LEAVE_OUT=sources sh tools/files.sh copy "$tree"
    mv "$tree/tools/README.tarball.md" "$tree/README.md"
    sed 's,^tools/README.tarball.md,README.md              ,' dist.list > "$tree/dist.list"
    cp tools/files.sh "$tree/tools"
    { printf '%s\n' 'all:' "	@echo 'Everything is built: make install installs it.'" ''; cat install.mk; } > "$tree/Makefile"
}

# debian_packages TREE WORD..: builds the packages of a tree by dpkg-buildpackage with these arguments.
debian_packages() {
    local room
    room=$(mktemp -d -p "$scratch")
    cp -r "$1" "$room/tree"
    cp -r debian "$room/tree"
    fill_in_address "$room/tree"
    (cd "$room/tree" && unset SOURCE_DATE_EPOCH && dpkg-buildpackage --no-sign "${@:2}") > "$scratch/log" 2>&1 ||
        { cat "$scratch/log" >&2; return 1; }
    take "$room"/*.deb
}

fill_in_address() { sed -i "s/ <>/ <$(sed -n 's/^address: *//p' tools/owner.txt)>/" "$1/debian/control" "$1/debian/changelog"; }

# debian_sources: builds the source package from the sources in git.
debian_sources() {
    local sources=$scratch/cdpatch-$version
    mkdir "$sources"
    git ls-files -z | tar --null -T - -cf - | tar -C "$sources" -xf -
    fill_in_address "$sources"
    chmod -R u=rwX,go=rX "$sources"
    find "$sources" -exec touch -h -d "@$SOURCE_DATE_EPOCH" {} +
    mv "$sources/debian" "$scratch/kept"
    archive "$sources" "$scratch/cdpatch_$version.orig.tar.gz"
    mv "$scratch/kept" "$sources/debian"
    (cd "$scratch" && unset SOURCE_DATE_EPOCH && dpkg-source --build "$sources") > "$scratch/log" 2>&1 ||
        { cat "$scratch/log" >&2; return 1; }
    take "$scratch"/cdpatch_*.{dsc,orig.tar.gz,debian.tar.xz}
}

# python_packages LIBRARY WHAT..: builds the wheel with a library and, with `sdist`, the source archive.
python_packages() {
    local room
    room=$(mktemp -d -p "$scratch")
    cp -r "$tree/python" "$room/python"
    cp "$1" library/NOTICES "$room/python/cdpatch"
    # PyPI refuses packages of this class.
    [ -f LICENSE ] || sed -i 's/^classifiers = \[$/&\n    "Private :: Do Not Upload",/' "$room/python/pyproject.toml"
    mkdir "$room/pip"
    (cd "$room/python" && python3 -B -c 'import backend, sys; [getattr(backend, f"build_{it}")(sys.argv[1]) for it in sys.argv[2:]]' \
        "$room/pip" "${@:2}")
    take "$room"/pip/*
}

# arm64_tree: creates the tree of the tarball with the program and the library for aarch64.
arm64_tree() {
    cp -r "$tree" "$arm64"
    rm -r "$arm64/library/x86-64-v3"
    sed -i '/x86-64-v3/d' "$arm64/dist.list"
    cp arm64/cdpatch "$arm64"
    cp arm64/libcdpatch.* "$arm64/library"
}

# windows_archive: builds the archive for people who have never used a shell. Its README has the line ends of Windows.
windows_archive() {
    local room=$scratch/cdpatch-$version-windows-x86_64
    mkdir "$room"
    cp windows/* include/cdpatch.h CHANGELOG.md "$scratch/cdscript.js" "$tree/cdpatch.html" "$room"
    sed "s/@version@/$version/; s/\$/\r/" tools/README.windows.txt > "$room/README.txt"
    python3 -B - "$room" << 'EOF_ZIP'
import sys
from pathlib import Path
from zipfile import ZIP_DEFLATED, ZipFile, ZipInfo
room = Path(sys.argv[1])
with ZipFile(f'{room}.zip', 'w', ZIP_DEFLATED) as made:
    for file in sorted(room.iterdir()):
        made.writestr(ZipInfo(f'{room.name}/{file.name}'), file.read_bytes(), ZIP_DEFLATED)
EOF_ZIP
    take "$room.zip"
}

# take FILE..: moves built files to DIRECTORY.
take() {
    install -m 644 "$@" "$directory"
    made+=("${@##*/}")
}

release_tree
archive "$tree" "$scratch/${tree##*/}.tar.gz"
take "$tree.tar.gz"
cp "$tree/cdscript" "$scratch/cdscript.js"
take "$scratch/cdscript.js" "$tree/cdpatch.html"
if has 'the packages for Debian are' dh debhelper dh_python3 dh-python; then debian_packages "$tree" --build=binary; fi
if [ -e .git ] && has "Debian's source package is" git git dpkg-source dpkg-dev; then debian_sources; fi
if has 'the packages for pip are' python3 python3; then python_packages "$tree/library/libcdpatch.so.2" wheel sdist; fi
if has 'the package for npm is' tsc node-typescript esbuild esbuild; then
    name=$(bash tools/npm.sh library cdscript "$version" "$scratch")
    take "$scratch/$name"
fi
if [ ! -e windows/cdpatch.exe ]; then
    echo 'Nothing was built for Windows (make windows), so nothing is packed for it.' >&2
elif has 'the archive and the wheel for Windows are' python3 python3; then
    windows_archive
    python_packages windows/cdpatch.dll wheel
fi
if [ ! -e arm64/cdpatch ]; then
    echo 'Nothing was built for aarch64 (make arm64), so nothing is packed for it.' >&2
else
    arm64=$scratch/cdpatch-$version-aarch64-linux
    arm64_tree
    archive "$arm64" "$arm64.tar.gz"
    take "$arm64.tar.gz"
    if has 'the packages for Debian on arm64 are' dh debhelper aarch64-linux-gnu-objdump binutils-aarch64-linux-gnu; then
        debian_packages "$arm64" --build=any --host-arch=arm64 --no-check-builddeps
    fi
    if has 'the wheel for aarch64 is' python3 python3; then python_packages arm64/libcdpatch.so.2 wheel; fi
fi
cd "$directory"
for file in "${made[@]}"; do
    sha256sum "$file" | tee "$file.sha256"
done
[ -z "$key" ] || bash "$OLDPWD/tools/sign.sh" "$key" "${made[@]}"
bash "$OLDPWD/tools/fit.sh" owner >&2 || true
