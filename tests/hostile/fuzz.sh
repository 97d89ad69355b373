#!/usr/bin/env bash
# Searches for harmful input: `bash tests/hostile/fuzz.sh [SECONDS [SEED]]`. For SECONDS, by default 600, clang's libFuzzer, if installed,
# tries scripts and images on the calls of C. Then node tries each kind of file that the core and the page read, for as long. Findings stay
# in the current directory. Once a defect is fixed, the file that showed it goes to tests/hostile/corpus.
set -u
top=$(cd "$(dirname "$0")/../.." && pwd)
seconds=${1:-600}
seed=${2:-$((SRANDOM % 1000000 + 1))}
status=0
echo "seed $seed"
scratch=$(mktemp -d)
trap 'rm -rf "$scratch"' EXIT
if clang -O1 -fsanitize=fuzzer -I "$top/include" "$top/tests/hostile/fuzz.c" "$top/library/libcdpatch.a" -o "$scratch/fuzz" 2> "$scratch/errors"; then
    mkdir "$scratch/corpus"
    printf '%s\n' '"cdpatch 1\x0a"' '"cdpatch 2\x0a"' '"\x0aset "' '"\x0afill "' '"\x0aaddress "' '"\x0arebuild "' '" was "' '"2047"' '"4096"' \
        '"00:02:00"' '"#"' '"\x0d\x0a"' '"999999999"' > "$scratch/words"
    printf 'abcdefghijklcdpatch 2\nset 24931 10 4142 was 6565\nfill 24930 0 2048 FF\naddress 24932 00:02:07\nrebuild 24931\n' > "$scratch/corpus/script"
    "$scratch/fuzz" -seed="$seed" -max_total_time="$seconds" -max_len=4000 -dict="$scratch/words" -verbosity=0 "$scratch/corpus" || status=1
else
    echo "The calls of C want clang and its runtime (Debian's packages clang and libclang-rt-14-dev): $(head -n 1 "$scratch/errors")"
fi
for kind in cue iso table list dat script patcher volumes rows cells; do
    node "$top/tests/hostile/fuzz.mjs" --seconds "$seconds" --seed "$seed" "$kind" || status=1
done
node "$top/tests/hostile/fuzz.mjs" growth || status=1
exit "$status"
