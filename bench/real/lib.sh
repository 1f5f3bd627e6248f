# What the recorded programs share. Nothing here is meant to be called alone.

# shellcheck source=../lib.sh
. "$(dirname "$(readlink -f "${BASH_SOURCE[0]}")")/../lib.sh"
export TEURLAKS_ARCHIVE="${TEURLAKS_ARCHIVE:-$top/crates/teurlaks_c/out}"
recorder="$here/out/recorder.so"
declare -A libraries=([mimalloc]=libmimalloc2.0 [jemalloc]=libjemalloc2)

build_replay() {
    local words=(-std=c11 -O2 -Wall -Wextra -Werror -pthread) name sources=()
    mkdir -p "$here/out"
    "${CC:-cc}" "${words[@]}" -fPIC -shared "$here/real/recorder.c" -o "$recorder" -ldl
    for name in replay steps core_store split_store malloc_store split_mesher compaction allocator; do
        sources+=("$here/real/$name.c")
    done
    "${CC:-cc}" "${words[@]}" -I"$top/c" "${sources[@]}" "$top/c/pages.c" "$TEURLAKS_ARCHIVE/libteurlaks_c.a" -o "$here/out/replay" -ldl
}

# The replays of a recording over each store, with checkpoints after so many records: each line behind the name of its run. Those that are timed
# go in turn.
replays() {
    local recording=$1 round name
    shift
    for round in 1 2 3 4 5; do
        for name in never compact compact-halves compact-sparse compact-halves-sparse; do
            "$here/out/replay" core "$name" "$recording" "$@" | sed "s/^/core-$name /"
        done
    done
    for name in rounds rounds-64 rounds-256; do
        "$here/out/replay" core "$name" "$recording" "$@" | sed "s/^/core-$name /"
    done
    for name in compact compact-sparse; do
        "$here/out/replay" split "$name" "$recording" "$@" | sed "s/^/split-$name /"
    done
    "$here/out/replay" malloc compact "$recording" "$@" | sed 's/^/glibc /'
    for name in "${!libraries[@]}"; do
        LD_PRELOAD=$(library "${libraries[$name]}") "$here/out/replay" malloc compact "$recording" "$@" | sed "s/^/$name /"
    done
}

# A line for each tenth of the records, with how many they are, but for the last tenth, in which a program takes all apart.
tenths() {
    local records tenth
    records=$(od -A n -t u8 -j 8 -N 8 "$1")
    for tenth in 1 2 3 4 5 6 7 8 9; do
        echo "$tenth/10 $((records * tenth / 10))"
    done
}

# What stands above all that was measured.
told() {
    echo "# $(date -u +%Y-%m-%d). $(system)."
    echo "# commit $(git -C "$top" rev-parse --short HEAD); mimalloc $(version libmimalloc2.0), jemalloc $(version libjemalloc2), glibc $(version libc6); $*."
}
