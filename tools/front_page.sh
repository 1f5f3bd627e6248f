# What `check` asks of README beside tools/documents: that what it links to exists, that it shows
# what the program prints, and that each limit is that of the source. The tables of figures, in
# other documents too, must be those that `bench/tables` writes. `check` calls `front_page`, and
# counts by its own `passed` and `failed`.
# shellcheck shell=bash disable=SC2016,SC2154

# Counts whether a command succeeds: `asks MESSAGE COMMAND [WORD..]`.
asks() {
    local message=$1
    shift
    if "$@"; then
        passed=$((passed + 1))
    else
        failed=$((failed + 1))
        echo "check: README must $message"
    fi
}

# Counts whether README has this text on one line.
has_line() {
    asks "have: $1" grep -qF -- "$1" "$top/README.md"
}

# Whether the first block of text in README is the report of the run that stands above it.
shows_report() {
    awk '/^```text$/ { on = ++blocks == 1; next } /^```$/ { on = 0 } on' "$top/README.md" |
        cmp -s - "$top/examples/one_fold.report"
}

# Counts each file that README links to.
count_links() {
    local target
    while read -r target; do
        asks "link to files that exist: $target" [ -e "$top/$target" ]
    done < <(grep -oE '\]\([^):#]+' "$top/README.md" | cut -c 3-)
}

# The number that a constant of a crate has, written with commas.
limit() {
    sed -n "s/^pub const $2: [a-z0-9]* = \(.*\);\$/\1/p" "$top/crates/$1" |
        sed 's/^u32::MAX$/4294967295/; s/_//g' | with_commas
}

with_commas() {
    sed -E ':again; s/([0-9])([0-9]{3})($|[^0-9])/\1,\2\3/; t again'
}

front_page() {
    local before=$passed shards groups
    count_links
    has_line './meshrun run --serial examples/one_fold.trace'
    asks 'show examples/one_fold.report' shows_report
    shards=$(limit span/src/limits.rt MOST_SHARDS)
    groups=$(limit mesh_graph/src/build.rt MOST_GROUPS)
    has_line "| shards, one thread each | $shards | $shards |"
    has_line "| pages of a shard at once | $(limit span/src/limits.rt MOST_PAGES) | $(
        limit trace_text/src/header.rt TRACE_PAGES) |"
    has_line "| pages a shard ever opens | $(limit span/src/limits.rt MOST_SPANS) | $(
        limit trace_runner/src/replay.rt TRACE_SPANS) |"
    has_line "| pages per side of a plan | $groups | $groups |"
    asks 'show what was measured: bench/tables --check' "$top/bench/tables" --check
    echo "check: README and what it cites: $((passed - before)) passed"
}
