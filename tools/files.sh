#!/bin/sh
# `tools/files.sh install`, `uninstall`, or `copy DIRECTORY` installs, removes, or copies the files of dist.list, relative to its directory.
# install.mk sets the environment: the directories, DESTDIR, VERSION, and LEAVE_OUT, the parts of pages to leave out. PACKAGE limits the
# command to the files of one Debian package.
set -eu
umask 022
room=$(mktemp -d)
trap 'rm -rf "$room"' EXIT

# each COMMAND: calls a command with the source, the target, and the mode of each file, with patterns expanded.
each() {
    while read -r source place mode package; do
        case $source in '' | '#'*) continue ;; esac
        [ "${PACKAGE:-$package}" = "$package" ] || continue
        directory=
        [ -n "${copy-}" ] || eval "directory=\$${place%%/*}"
        place=${place#*/}
        case $place in
            CALL*) for call in $(calls); do "$1" "$source" "$directory/$call${place#CALL}" "$mode"; done ;;
            */ | '') for file in $source; do "$1" "$file" "$directory/$place${file##*/}" "$mode"; done ;;
            *) "$1" "$source" "$directory/$place" "$mode" ;;
        esac
    done < dist.list
}

# The calls of the library, for each of which there is a man page of that name.
calls() { sed -n '/^\.Sh SYNOPSIS/,/^\.Sh DESCRIPTION/s/^\.Fn \([a-z0-9_]*\) .*/\1/p' man/libcdpatch.3; }

# The Debian packages of dist.list.
packages() { sed -n 's/^[^#].* \(.*[a-z0-9]\)$/\1/p' dist.list | sort -u; }
assert_known() {
    packages | grep -qxF -e "$PACKAGE" || { echo "unknown PACKAGE $PACKAGE: the packages are $(packages | paste -sd ' ')" >&2; exit 1; }
}

assert_made() { [ "$3" = link ] || [ -e "$1" ] || { echo "There is no $1: run make first." >&2; exit 1; }; }

# page FILE: prints a page without the parts that are left out.
page() {
    for part in $LEAVE_OUT; do
        echo "/^<!-- $part -->\$/,/^<!-- end of $part -->\$/d"
    done > "$room/parts"
    sed -f "$room/parts" "$1"
}

# literal TEXT: prints a text so that sed takes each of its characters as it is, as a replacement and, at its place, in a pattern.
literal() { printf '%s' "$1" | sed 's/[][\\&|*.^$]/\\&/g'; }

# text FILE: prints a page, which names /usr/local, with the directories of this installation; or a file for other programs, in which they
# are written @libdir@.
text() {
    page "$1" | sed -e 's|/usr/local/share/cdpatch/python|@pythondir@|g; s|/usr/local/share/cdpatch|@pagedir@|g' \
        -e 's|/usr/local/share/doc/cdpatch|@docdir@|g' | sed -e "s|@pythondir@|$(literal "$pythondir")|g" \
        -e "s|@pagedir@|$(literal "$pagedir")|g; s|@docdir@|$(literal "$docdir")|g; s|@prefix@|$(literal "$prefix")|" \
        -e "s|@libdir@|$(literal "$libdir")|; s|@includedir@|$(literal "$includedir")|; s|@version@|$VERSION|" \
        -e "s|@libraries@|$(literal "$(realpath -ms --relative-to="$cmakedir" "$libdir")")|" \
        -e "s|@includes@|$(literal "$(realpath -ms --relative-to="$cmakedir" "$includedir")")|" \
        -e "/^[a-z]*dir=/s|=$(literal "$prefix")/|=\${prefix}/|"
}

# place: installs a text from a temporary file: a redirection would follow a link at the target.
place() {
    target=$DESTDIR$2
    $INSTALL -d "${target%/*}"
    case $3 in
        link) ln -sf "$1" "$target" ;;
        text) text "$1" > "$room/text" && $INSTALL -m 644 "$room/text" "$target" ;;
        *) $INSTALL -m "$3" "$1" "$target" ;;
    esac
}

remove() { rm -f "$DESTDIR$2"; }

copy() {
    [ "$3" != link ] || return 0
    install -d "$copy/$(dirname "$1")"
    case $3 in
        text) page "$1" > "$copy/$1" ;;
        *) install -m "$3" "$1" "$copy/$1" ;;
    esac
}

# remove_compiled: removes the files that Python compiled.
remove_compiled() {
    rm -rf "$DESTDIR$pythondir/cdpatch/__pycache__"
    rm -f "$DESTDIR$pythondir"/__pycache__/backend.*.pyc
}

# remove_directories: removes the directories that only cdpatch has. Others may belong to someone else, even if empty.
remove_directories() {
    for directory in "$docdir/docs/design" "$docdir/docs" "$docdir/examples" "$docdir" "$pythondir/cdpatch" \
        "$pagedir/python/__pycache__" "$pagedir/python" "$pagedir" "$cmakedir"; do
        rmdir "$DESTDIR$directory" 2> /dev/null || true
    done
}

[ -z "${PACKAGE-}" ] || assert_known
case $1 in
    install)
        each assert_made
        each place
        ;;
    uninstall)
        each remove
        remove_compiled
        remove_directories
        ;;
    copy)
        copy=$2
        each assert_made
        each copy
        ;;
esac
