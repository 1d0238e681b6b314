# shellcheck shell=sh disable=SC2034
# Sourced by bench/run and bench/instructions, at the repository's root. Builds the library, and the twin and the driver
# into target/bench, with every peer that can be linked here. Sets `driver`.
#
# SPLICEBELL_ARCHIVE_DIR=FOLDER   takes the library there, or the archive, instead of building it.
# SPLICEBELL_PROCESSOR=LEVEL      on x86-64: the level whose code is timed (docs/ABI.md). Products have the lowest alone.
# SPLICEBELL_BEFORE=FOLDER        an earlier one, of version 3.1.0: its calls are timed in turns with ours, as `before`.
# ZFEC=FOLDER                     where zfec's fec.c and fec.h lie; by default where Debian's python3-zfec puts them.
. scripts/host.sh

built=target/bench
archive=$(archive_in "$(scripts/archive library "$code")")
products=$(scripts/archive "$code" bench_products)/libbench_products.a
ZFEC=${ZFEC:-/usr/lib/python3/dist-packages/zfec}
flags="-O2 -std=gnu11 -Wall -Wextra -Iinclude"
case $archive in *libsplicebell.a) flags="$flags -DWITH_LEVELS" ;; esac
plain_sources="timing floors coders products codes pools pool_times maps catalogue catalogue_times texts lists replays
    counts plans moves swaps settings growth works main"

mkdir -p "$built"
"${RUSTC:-rustc}" --edition 2021 -O -C panic=abort --crate-type staticlib \
    ${CARGO_BUILD_TARGET:+--target "$CARGO_BUILD_TARGET"} -o "$built/libtwin.a" bench/twin/lib.rs

# can_link NAME HEADER CALL WORDS...: whether a three-line program with that header and call can be linked here.
can_link() {
    name=$1 header=$2 call=$3
    shift 3
    printf '#include <stddef.h>\n#include <%s>\nint main(void) { return (void *)&%s == NULL; }\n' "$header" "$call" \
        >"$built/try.c"
    if $CC "$built/try.c" -o "$built/try" "$@" >"$built/try.log" 2>&1; then
        echo "$name: found"
        return 0
    fi
    echo "$name: not found, skipped (docs/BENCH.md says how to install it)"
    return 1
}

peers=
peer_flags=
peer_sources=
if can_link ISA-L isa-l.h ec_encode_data -lisal; then
    peers="$peers -lisal" peer_flags="$peer_flags -DWITH_ISAL" peer_sources="$peer_sources bench/src/isal.c"
fi
if can_link jerasure jerasure.h jerasure_matrix_encode -I/usr/include/jerasure -lJerasure -lgf_complete; then
    peers="$peers -lJerasure -lgf_complete" peer_flags="$peer_flags -DWITH_JERASURE -I/usr/include/jerasure"
    peer_sources="$peer_sources bench/src/jerasure.c"
fi
if can_link zfec fec.h fec_encode "-I$ZFEC" "$ZFEC/fec.c"; then
    $CC -O2 -w -c "$ZFEC/fec.c" -o "$built/fec.o"
    peer_flags="$peer_flags -DWITH_ZFEC -I$ZFEC" peer_sources="$peer_sources bench/src/zfec.c $built/fec.o"
fi

# the same names must not stand twice in one program
before=
if [ -n "${SPLICEBELL_BEFORE:-}" ]; then
    before=$built/libbefore.a
    earlier=$(archive_in "$SPLICEBELL_BEFORE")
    "$($CC -print-prog-name=nm)" --defined-only "$earlier" |
        sed -n 's/^[0-9a-f]* T splicebell_\(.*\)/splicebell_\1 before_\1/p' >"$built/before.names"
    "$($CC -print-prog-name=objcopy)" --redefine-syms="$built/before.names" "$earlier" "$before"
    peer_flags="$peer_flags -DWITH_BEFORE"
    echo "before: $(wc -l <"$built/before.names") functions of an earlier archive"
fi

sources=
for name in $plain_sources; do sources="$sources bench/src/$name.c"; done
libraries="$archive $products $before $built/libtwin.a -lpthread -ldl"
driver=$built/bench
# these are lists of words
# shellcheck disable=SC2086
$CC $flags $peer_flags $sources $peer_sources $libraries $peers -o "$driver"
