# What `run` and `check` share. Nothing here is meant to be called alone.

here=$(cd "$(dirname "${BASH_SOURCE[0]}")" && pwd)
top=$(dirname "$here")
built="$here/out/target/release"
program="$top/crates/meshrun/out/meshrun"
packages="librust-slab-dev librust-slotmap-dev librust-sharded-slab-dev libmimalloc2.0 libjemalloc2"

# The peers, from Debian's packages; where all are there, nothing is asked of the network.
install_peers() {
    local missing="" name
    for name in $packages; do
        dpkg-query -W -f '${Status}' "$name" 2>/dev/null | grep -q 'ok installed' || missing="$missing $name"
    done
    if [ -z "$missing" ]; then return; fi
    echo "bench: installing$missing" >&2
    local root=""
    [ "$(id -u)" = 0 ] || root=sudo
    $root apt-get update -qq >&2
    # shellcheck disable=SC2086
    $root apt-get install -y -qq --no-install-recommends $missing >&2
}

version() {
    dpkg-query -W -f '${Version}' "$1"
}

# The file of an allocator's package that a program is started with.
library() {
    dpkg -L "$1" | grep -m 1 '\.so\.2$'
}

system() {
    local cpu
    cpu=$(sed -n 's/^model name[^:]*: //p' /proc/cpuinfo | head -n 1)
    echo "$cpu, $(nproc) cores; $(uname -sr), load $(cut -d ' ' -f 1 /proc/loadavg) at the start"
}

peers() {
    echo "slab $(version librust-slab-dev), slotmap $(version librust-slotmap-dev), sharded-slab $(version librust-sharded-slab-dev)," \
        "mimalloc $(version libmimalloc2.0), jemalloc $(version libjemalloc2), glibc $(version libc6)"
}

# Proves and builds meshrun where it has changed, and builds the rest. The program is then called without the script
# around it, which looks at the sources first.
build() {
    mkdir -p "$here/out/traces" "$here/out/check"
    "$top/meshrun" --prove >&2
    (cd "$here" && cargo build --quiet --release)
}

# The archive is that of the folder which TEURLAKS_ARCHIVE names, or it is proved and made.
make_archive_here() {
    if [ -n "${TEURLAKS_ARCHIVE:-}" ]; then return; fi
    # shellcheck disable=SC2016
    bash -c '. "$0/tools/lib.sh" && make_archive >&2' "$top"
    export TEURLAKS_ARCHIVE="$top/crates/teurlaks_c/out"
}

# Builds the programs over the crate `teurlaks`.
build_library() {
    make_archive_here
    (cd "$here/library" && CARGO_TARGET_DIR="$here/out/target" cargo build --quiet --release)
}

# What stands above the figures of a file: the day, the machine and what was measured.
heading() {
    echo "# $(date -u +%Y-%m-%d). $(system)."
    echo "# commit $(git -C "$top" rev-parse --short=8 HEAD); $(rustc --version); $(peers)."
}

# Of lines that differ in the last word alone, which is a number, the one with the least.
least() {
    awk '{
        key = $0
        sub(/ [^ ]*$/, "", key)
        if (!(key in least)) { order[++keys] = key; least[key] = $NF }
        if ($NF < least[key]) least[key] = $NF
    } END { for (i = 1; i <= keys; i++) print order[i], least[order[i]] }'
}
