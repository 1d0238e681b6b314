# shellcheck shell=sh disable=SC2034
# Sourced by every command that links the library. Sets `code`, the processor whose code is linked and run (a word for
# scripts/archive), CC and runner, and for cargo where needed the target, its linker and its runner. Defines archive_in.
#
# On x86-64 and on Arm machines: the machine's own code, cc, no runner. SPLICEBELL_EMULATE=1 on an Arm machine: the
# x86-64 code that is shipped, by a cross compiler, a Rust standard library for x86-64 and the emulator qemu-x86_64
# (docs/ABI.md says how to get them).

# archive_in FOLDER: the archive there, libsplicebell.a, or else libabi.a, which `rt lib` makes of abi.
archive_in() {
    for archive in "$1/libsplicebell.a" "$1/libabi.a"; do
        [ ! -f "$archive" ] || { echo "$archive"; return; }
    done
    echo "there is no libsplicebell.a in $1" >&2
    return 1
}

# The emulator's processor, also for bench/instructions on an x86-64 machine: all that it can, so x86-64-v3; without fast
# string copies, which it does, and counts, a byte at a time.
export QEMU_CPU="${QEMU_CPU:-max,-erms}"

if [ "$(uname -m)" = x86_64 ] || [ "${SPLICEBELL_EMULATE:-}" != 1 ]; then
    code=$(uname -m)
    CC=${CC:-cc}
    runner=
else
    code=x86_64
    CC=${CC:-x86_64-linux-gnu-gcc}
    runner=qemu-x86_64
    for needed in "$CC" qemu-x86_64; do
        command -v "$needed" >/dev/null || { echo "$needed is not there: docs/ABI.md" >&2; exit 2; }
    done
    probe=$(mktemp)
    if ! { echo 'int main(void) { return 0; }' | "$CC" -x c - -o "$probe" && qemu-x86_64 "$probe"; } 2>/dev/null; then
        rm -f "$probe"
        echo "no x86-64 program can be linked and run here, perhaps for want of its C library: docs/ABI.md" >&2
        exit 2
    fi
    rm -f "$probe"
    for RUSTC in "${RUSTC:-rustc}" /usr/bin/rustc; do
        [ -d "$("$RUSTC" --print sysroot)/lib/rustlib/x86_64-unknown-linux-gnu" ] && break
        RUSTC=
    done
    [ -n "$RUSTC" ] || { echo "no rustc here has the standard library of x86_64-unknown-linux-gnu: docs/ABI.md" >&2; exit 2; }
    RUSTDOC=$(dirname "$(command -v "$RUSTC")")/rustdoc
    CARGO_BUILD_TARGET=x86_64-unknown-linux-gnu
    CARGO_TARGET_X86_64_UNKNOWN_LINUX_GNU_LINKER=$CC
    CARGO_TARGET_X86_64_UNKNOWN_LINUX_GNU_RUNNER=$runner
    export RUSTC RUSTDOC CARGO_BUILD_TARGET CARGO_TARGET_X86_64_UNKNOWN_LINUX_GNU_LINKER CARGO_TARGET_X86_64_UNKNOWN_LINUX_GNU_RUNNER
fi
export CC runner
