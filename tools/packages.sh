#!/usr/bin/env bash
# Prints the Debian packages of tools/packages.txt whose command, or import in Python, is missing: `tools/packages.sh [PART]..`, by default those
# of the parts `build` and `tests`. `tools/packages.sh --install [PART]..` installs them, and prints those that it could not install.
set -u

# is_here NAME: whether there is a command or a file of this name, or Python can import this module.
is_here() {
    case $1 in
        'import '*) /usr/bin/python3 -c "$1" 2> /dev/null ;;
        /*) [ -e "$1" ] ;;
        *) command -v "$1" > /dev/null ;;
    esac
}

# missing PART..: prints the packages of these parts that are missing, those of one command in a line.
missing() {
    local line part='' parts=" ${*:-build tests} "
    while IFS= read -r line; do
        case $line in
            '['*) part=${line%%]*} part=${part#[} ;;
            *': '*) [[ $parts != *" $part "* ]] || is_here "${line%%:*}" || echo "${line#*: }" ;;
        esac
    done < <(grep -v '^#' "$(dirname "$0")/packages.txt")
}

# install: installs the packages of each line of the input by themselves, since one that apt does not know would stop all others.
install() {
    local packages
    while read -ra packages; do
        DEBIAN_FRONTEND=noninteractive timeout 300 apt-get -qq -y --no-install-recommends install "${packages[@]}" > "$log" 2>&1 < /dev/null ||
            echo "apt-get cannot install ${packages[*]}: $(tail -n 1 "$log")"
    done
}

if [ "${1-}" = --install ]; then
    [ -n "$(missing "${@:2}")" ] || exit 0
    log=$(mktemp)
    trap 'rm -f "$log"' EXIT
    timeout 120 apt-get -qq update
    missing "${@:2}" | install
else
    missing "$@"
fi
