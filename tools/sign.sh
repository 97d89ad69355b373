#!/usr/bin/env bash
# `tools/sign.sh KEY FILE..` signs files with an ssh key, which is a private key or a public key of the agent, writes each signature to FILE.sig,
# and verifies it with the key in tools/owner.txt.
set -euo pipefail
key=$(realpath "$1")
shift
signers=$(mktemp)
trap 'rm -f "$signers"' EXIT
printf 'cdpatch %s\n' "$(sed -n 's/^key: *//p' "$(dirname "$0")/owner.txt")" > "$signers"
rm -f "${@/%/.sig}"
for file; do
    ssh-keygen -q -Y sign -f "$key" -n file "$file"
    ssh-keygen -Y verify -f "$signers" -I cdpatch -n file -s "$file.sig" < "$file" || {
        rm -f "$file.sig"
        echo "The key of $key is not the one in tools/owner.txt." >&2
        exit 1
    }
done
