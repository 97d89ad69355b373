#!/usr/bin/env bash
# Tests Debian's packages in a clean root with apt; run it by hand before a release. `bash tests/pages/debian_root.sh ROOT DIRECTORY` installs
# the packages of DIRECTORY in ROOT, which `debootstrap --variant=minbase bookworm ROOT` has created. It uses, removes, and purges each, and
# nothing may be left. It needs root and a network, and prints its findings; the last line is 'N passed, M failed'.
set -u
root=$(realpath "$1")
directory=$(realpath "$2")
top=$(cd "$(dirname "$0")/../.." && pwd)
. "$top/tests/lib/judging.sh"
all=(cdpatch cdscript libcdpatch2 libcdpatch-dev python3-cdpatch)

inside() { chroot "$root" env -i HOME=/root PATH=/usr/sbin:/usr/bin:/sbin:/bin LC_ALL=C.UTF-8 DEBIAN_FRONTEND=noninteractive "$@"; }
apt() { inside apt-get -qq -y --no-install-recommends "$@" > "$scratch/log" 2>&1 || { tail -n 5 "$scratch/log"; false; }; }

# The files in the root, except records of apt and dpkg.
paths() {
    (cd "$root" && find . -xdev -print |
        grep -vE '^\./((proc|dev|tmp|root|use|packages|var/cache|var/log|var/lib/(apt|dpkg))(/.*)?|etc/ld\.so\.cache)$' | LC_ALL=C sort)
}
is_as_before() { paths > "$scratch/after" && diff "$scratch/before" "$scratch/after"; }
is_gone() { ! inside dpkg -l "${all[@]}" 2> "$scratch/log" | grep -E '^(ii|rc) '; }

# Runs the example of the README unchanged on a disc of zeros, and compares its output.
used_by_its_readme() {
    local readme=$root/usr/share/doc/cdpatch/README.md
    rm -rf "$root/use"
    mkdir "$root/use"
    head -c 40960 /dev/zero > "$root/use/zeros"
    inside sh -c 'cd /use && cdscript raw zeros disc.bin' || return
    sed -n '/^```sh$/,/^```$/p' "$readme" | sed '1d;$d' > "$root/use/example"
    sed -n '/^```text$/,/^```$/p' "$readme" | sed '1d;$d' > "$scratch/wanted"
    inside sh -c 'cd /use && . ./example' > "$scratch/got" && diff "$scratch/wanted" "$scratch/got"
}
used_in_python() {
    [ "$(inside python3 -c 'import cdpatch; print(cdpatch.listing(open("/use/disc.bin", "rb").read()), end="")' |
        tail -n 1)" = 'sectors 20 tail 0' ]
}
used_in_c() {
    inside sh -c 'cd /use && cc /usr/share/doc/libcdpatch-dev/examples/audit.c $(pkg-config --cflags --libs cdpatch) -o audit &&
        ./audit disc.bin | tail -n 1 | grep -x "sectors 20 mode1 20 damaged 0 tail 0"' > "$scratch/log"
}

installed_and_removed() {
    judge 'apt installs them' apt install /packages/{cdpatch,cdscript,libcdpatch2,libcdpatch-dev,python3-cdpatch}.deb
    judge 'the program does what its README says' used_by_its_readme
    judge 'Python uses the library' used_in_python
    judge 'the example in C is compiled by pkg-config, and runs' used_in_c
    judge 'man finds the page of a call' test -e "$root/usr/share/man/man3/cdpatch_edc.3.gz"
    judge 'apt removes them' apt remove "${all[@]}"
    judge 'nothing is left but what was there' is_as_before
    judge 'dpkg purges them' inside dpkg --purge "${all[@]}" 2> "$scratch/log"
    judge 'dpkg knows none of them' is_gone
}

mkdir -p "$root/packages"
mount --bind /proc "$root/proc"
trap 'umount "$root/proc"; rm -rf "$scratch" "$root/packages"' EXIT
for name in "${all[@]}"; do
    cp "$directory/${name}"_*.deb "$root/packages/$name.deb"
done
cp /etc/resolv.conf "$root/etc/resolv.conf"
judge 'apt installs what they need' eval 'apt update && apt install nodejs python3 gcc libc6-dev pkg-config'
paths > "$scratch/before"
installed_and_removed
finish
