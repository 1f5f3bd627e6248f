# What `meshrun`, `check`, `dist`, `rust/test` and `bench/` share. Nothing here is meant to be called alone.
# shellcheck shell=bash

top=$(cd "$(dirname "${BASH_SOURCE[0]}")/.." && pwd)
program="$top/crates/meshrun/out/meshrun"
built_from="$program.sources"
archive="$top/crates/teurlaks_c/out/libteurlaks_c.a"
# The same as bitcode, if `tools/record` made the archive.
bitcode="${archive%.a}_bitcode.a"
# What a gate that passed proved: the sum of its sources.
gate_from="$top/crates/teurlaks_c/out/gate.sources"
# What `./check --all` passed: a sum of the sources and the edits.
all_from="$top/crates/teurlaks_c/out/all.sources"

# The kit's command.
find_rt() {
    if command -v rt; then return; fi
    local kit
    for kit in "${KIT:-}" /opt/rattle "$HOME/rattle"; do
        if [ -n "$kit" ] && [ -x "$kit/bin/rt" ]; then
            echo "$kit/bin/rt"
            return
        fi
    done
    echo "meshrun: the Rattle kit's rt is not on the PATH; set KIT to the kit's folder" >&2
    return 1
}

# A sum of what the program is built from, by name and content: a file that is copied, checked out or removed changes it,
# whatever its date.
sum_of_sources() {
    (cd "$top" && find crates.txt crates \( -name out -o -name 'must-fail*' \) -prune -o -type f -print0 |
        LC_ALL=C sort -z | xargs -0 sha256sum | sha256sum)
}

# A sum of all that `./check --all` proves and tries, edits too.
sum_of_all() {
    (cd "$top" && find crates.txt crates -name out -prune -o -type f -print0 |
        LC_ALL=C sort -z | xargs -0 sha256sum | sha256sum)
}

# Whether `./check --all` has passed over the sources and edits as they stand.
all_is_current() {
    [ -f "$all_from" ] && [ "$(sum_of_all)" = "$(cat "$all_from")" ]
}

sum_of_build() {
    sum_of_sources
    sha256sum <"$program"
}

# Whether there is a program, and it was proved and built from the sources as they stand.
is_current() {
    [ -x "$program" ] && [ -f "$built_from" ] && [ "$(sum_of_build)" = "$(cat "$built_from")" ]
}

# To be called behind a proof and a build, with the sum of the sources before it: where they changed meanwhile, nobody
# knows of which of them the program is.
keep_sum() {
    if [ "$(sum_of_sources)" = "$1" ]; then sum_of_build >"$built_from"; fi
}

# The folder of the library that the gate has proved of a crate. Work on the crates goes on beside
# it.
gate_library_of() {
    echo "$top/crates/$1/out/rlib/gate"
}

# The crates of crates.txt.
names_of_crates() {
    sed -n 's/^\([a-z0-9_]*\)\>.*:.*/\1/p' "$top/crates.txt"
}

# The crates of ours that a crate of crates.txt uses.
names_below() {
    local used
    used=$(sed -n "s/^$1\>[^:]*: *//p" "$top/crates.txt")
    names_of_crates | grep -xF -f <(tr ' ' '\n' <<<"$used")
}

# Copies the crates to a new folder, without what is built and without edits.
copy_crates() {
    local to
    mkdir -p "$1" && to=$(cd "$1" && pwd) || return
    (cd "$top" && find crates.txt HANDLES crates \( -name out -o -name 'must-fail*' \) -prune -o -type f -print0 |
        xargs -0 cp --parents -t "$to")
}

# Puts the libraries that `rt ci` has proved in this copy of the crates in their place.
keep_gate_libraries() {
    local copy=$1 name made to
    rm -f "$gate_from"
    for name in $(names_of_crates); do
        made=$copy/crates/$name/out/rlib/$name.rlib
        to=$(gate_library_of "$name")
        rm -rf "$to"
        if [ -d "$made" ]; then mkdir -p "$to" && cp -r "$made" "$to"; fi
    done
}

# To be called behind `keep_gate_libraries`, with the sum of the sources that were proved. The
# libraries that are kept stand below it.
keep_gate_sum() {
    local name
    mkdir -p "$(dirname "$gate_from")"
    echo "$1" >"$gate_from"
    for name in $(names_of_crates); do
        if [ -d "$(gate_library_of "$name")" ]; then echo "$name" >>"$gate_from"; fi
    done
}

# Whether the libraries that a gate has proved are all there, and are of the sources as they stand.
gate_is_current() {
    local name
    [ -f "$gate_from" ] && [ "$(head -n 1 "$gate_from")" = "$(sum_of_sources)" ] || return
    for name in $(tail -n +2 "$gate_from"); do
        [ -d "$(gate_library_of "$name")/$name.rlib" ] || return
    done
}

# Runs a command, and adds what it took to the file COSTS, if that is set: a line `NAME|processor
# seconds|seconds by the clock`. What ran beside it has a line of its own, and is not counted twice
# if this shell waited for it meanwhile.
part() {
    local name=$1 began=$EPOCHSECONDS before beside=0 status=0
    shift
    take_time
    before=$used
    if [ "$BASHPID" = $$ ]; then beside=$(all_costs); fi
    "$@" || status=$?
    take_time
    if [ "$BASHPID" = $$ ]; then beside=$(($(all_costs) - beside)); fi
    if [ -n "${COSTS-}" ]; then
        echo "$name|$((used - before - beside))|$((EPOCHSECONDS - began))" >>"$COSTS"
    fi
    return "$status"
}

# The processor seconds of all parts in the file COSTS.
all_costs() {
    if [ -n "${COSTS-}" ]; then awk -F '|' '{ sum += $2 } END { print sum + 0 }' "$COSTS"; else echo 0; fi
}

# Sets `used` to the seconds of processor time that this shell and the commands that it has waited
# for have taken.
take_time() {
    local file
    file=$(mktemp)
    times >"$file"
    used=$(awk '
        { for (i = 1; i <= 2; i++) { split($i, at, /[ms]/); sum += 60 * at[1] + at[2] } }
        END { print int(sum + 0.5) }' "$file")
    rm -f "$file"
}

# The archive's sum, the sources', and what was said of its proof, as `make_archive` keeps them beside it.
sum_of_archive() {
    sha256sum <"$archive"
    sum_of_sources
}

archive_is_current() {
    [ -f "$archive" ] && [ -f "$archive.proof" ] && [ "$(sum_of_archive)" = "$(head -n 2 "$archive.proof")" ]
}

# Makes the archive of one check, which is recorded, over the libraries that the gate has proved of
# these very sources.
archive_over_gate() {
    local room status=0
    room=$(mktemp -d)
    "$top/tools/record" teurlaks_c "$room" "$archive" || status=$?
    rm -rf "$room"
    return "$status"
}

# Proves and makes the archive, where that is not done from the sources as they stand. Without the
# gate's libraries `rt lib` does so, which proves each crate below. What the kit says is shown where
# it fails.
make_archive() {
    local rt said before status=0
    if archive_is_current; then return; fi
    rt=$(find_rt) || return
    said=$(mktemp)
    before=$(sum_of_sources)
    if gate_is_current; then
        archive_over_gate >"$said" 2>&1 || status=$?
    else
        rm -f "$bitcode"
        (cd "$top/crates/teurlaks_c" && "$rt" lib </dev/null) >"$said" 2>&1 || status=$?
    fi
    if [ "$status" = 0 ] && [ "$(sum_of_sources)" = "$before" ] && keep_archive_proof "$said"; then
        :
    else
        cat "$said" >&2
        status=1
    fi
    rm -f "$said"
    return "$status"
}

# Notes of which sources the archive is, and the verdict in a file of what was said of its proof.
keep_archive_proof() {
    grep -aq '^logic=proved' "$1" || return
    { sum_of_archive && grep -a '^logic=' "$1" | tail -n 1; } >"$archive.proof"
}

# Puts an archive that was made in its place, with the verdict in a file of what was said.
keep_archive() {
    mkdir -p "$(dirname "$archive")" && mv "$1" "$archive" &&
        mv "${1%.a}_bitcode.a" "$bitcode" && keep_archive_proof "$2"
}
