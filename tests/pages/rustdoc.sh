# Runs each example in the rustdoc of the crates, exactly as it is printed.

enter rustdoc
# `make check` needs no toolchain.
if [ -n "${GATE-}" ]; then
    if command -v rt > /dev/null; then
        judge 'the examples in the rustdoc of the crates' env -C "$(mktemp -d -p "$PWD")" \
            python3 -B "$top/tests/pages/rustdoc.py" "${library_crates[@]}"
    else
        skip 'the examples in the rustdoc, which need rt of the Rattle toolchain'
    fi
fi
