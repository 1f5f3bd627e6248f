# What `check` does to the program that was built beyond its examples: texts that are cut or turned, texts as long as they may be, streams
# that are closed, full or short, and growths, writes and threads that are refused. It is called in the folder in which `check` runs the
# program, and counts by its `pass` and `fail`. Nothing here is meant to be called alone.
# shellcheck shell=bash disable=SC2034,SC2086,SC2154

# The longest that a run may take, in seconds, which is many times what it takes on an idle machine.
LONGEST=600

# Builds a library of this folder that is loaded before a program. The kit's clang has no headers, and these files ask for none.
build_library() {
    local rt
    rt=$(find_rt) || return
    "$(dirname "$("$rt" doc)")/toolchain/bin/clang" -O2 -fPIC -shared -nostdlib -fuse-ld=lld -o "$1.so" "$top/tools/$1.c"
}

# Hands the program each beginning of each trace and certificate of examples/, and each text in which one byte is another, two files at a
# time. Where a trace has many lines or much to do, its beginnings are enough.
cut_texts() {
    local file bytes
    for file in "$examples"/*.trace "$examples"/*.cert; do
        while [ "$(jobs -rp | wc -l)" -ge 2 ]; do wait -n; done
        bytes=$'\n 09a'
        case $file in */long_day.trace | *too_many_groups.trace) bytes='' ;; esac
        case $file in
            *.trace) TEXTS_TRACE=$file TEXTS_BYTES=$bytes LD_PRELOAD=$PWD/texts.so "$built" run --serial & ;;
            *) TEXTS_CERTIFICATE=$file TEXTS_BYTES=$bytes LD_PRELOAD=$PWD/texts.so "$built" check - & ;;
        esac
    done >out 2>err
    wait
    for file in "$examples"/*.trace "$examples"/*.cert; do
        if grep -q "^texts: $file: [1-9][0-9]* texts, 0 answered wrongly\$" out; then
            pass
        else
            fail "${built##*/} is to answer each beginning of ${file##*/}, and each text that differs from it in a byte"
        fi
    done
}

# Hands the program each beginning of a trace, which it replays by threads: of each trace of examples/
# but those with many lines or much to do, which would take minutes.
cut_texts_by_threads() {
    local file files
    mapfile -t files < <(printf '%s\n' "$examples"/*.trace | grep -v -e /long_day -e too_many_groups)
    for file in "${files[@]}"; do
        while [ "$(jobs -rp | wc -l)" -ge 2 ]; do wait -n; done
        TEXTS_TRACE=$file TEXTS_THREADS=1 LD_PRELOAD=$PWD/texts.so "$built" run &
    done >out 2>err
    wait
    for file in "${files[@]}"; do
        if grep -q "^texts: $file: [1-9][0-9]* texts, 0 answered wrongly\$" out; then
            pass
        else
            fail "${built##*/} is to answer each beginning of ${file##*/} by threads"
        fi
    done
}

# Counts a run that ends in time with status 0, and writes so many lines, of which these are the last.
expect_end() {
    local lines=$1 said=$2 under=(timeout "$LONGEST")
    shift 2
    echo "$said" >said
    run "$@"
    if [ "$ended" = 0 ] && [ "$(wc -l <out)" = "$lines" ] && tail -n "$(wc -l <said)" out | cmp -s - said && [ ! -s err ]; then
        pass
    else
        fail "${built##*/} $* is to end in time with status 0, and to write $lines lines, at last: $said"
    fi
}

# Counts a run over this text with a line of 50 MB, of this byte, behind it: it ends in time, refused so.
expect_refused_line() {
    local text=$1 byte=$2 under=(timeout "$LONGEST")
    of_file "$4" long "$3" >said
    shift 3
    { printf '%b' "$text" && head -c 50000000 /dev/zero | tr '\0' "$byte" && echo; } >long
    expect 1 $nothing said $nothing "$@" long
}

# Texts that are as long, or ask for as much, as they may.
longest_texts() {
    local header='mesh 1\nshards 64\npages 1024\nring 1\ngens 1\n' shard
    local keys='end pages 65536 live 16777216 calls 16777216' none='end pages 0 live 0 calls 0'
    expect_refused_line "${header}0 put " a 'line 6: form' run --serial
    expect_refused_line "${header}0 put a " 9 'line 6: limit' run --serial
    expect_refused_line '' a 'line 1: form' check
    { printf '%b#' "$header" && tail -n 1 long; } >remark
    expect_end 1 "$none" run --serial remark
    { printf '%b' "${header/shards 64/shards 1}" && yes mark | head -n 200000; } >marks
    expect_end 800001 "closed 200000 pages 0"$'\n'"$none" run --serial marks
    head -n 20005 marks >fewer_marks
    expect_end 80002 "closed 20000 pages 0"$'\n'"$none"$'\n''audit ok' run fewer_marks
    { printf '%b' "$header" && for shard in {0..63}; do echo "$shard fill a$shard 262144 0"; done; } >keys
    expect_end 1 "$keys" run --serial keys
    expect_end 2 "$keys"$'\n''audit ok' run keys
    rm -f long remark marks fewer_marks keys
}

# Standard streams that are closed, or whose reader goes, and files that can't be read or written.
failing_streams() {
    local report=$examples/one_fold.report under path
    local long
    long=$(printf 'a%.0s' {1..300})
    local -A paths=(['.']='Is a directory (os error 21)' [loop]='Too many levels of symbolic links (os error 40)'
        [no_such_folder/f]=$absent ["$long"]='File name too long (os error 36)')
    ln -s loop loop
    printf 'mesh 1\nshards 1\npages 1024\nring 4\ngens 9\n0 fill a 262144 0\n' >long_replies
    under=(sh -c 'exec "$@" >&-' sh)
    expect 5 $nothing unwritten $nothing run --serial a.trace --certificate f
    expect 5 $nothing unwritten $nothing check a.cert
    under=(sh -c 'exec "$@" <&-' sh)
    expect_io $nothing 'standard input' 'Bad file descriptor (os error 9)' run --serial --certificate f
    expect_io $nothing 'standard input' 'Bad file descriptor (os error 9)' run --serial - --certificate f
    expect_io $nothing 'standard input' 'Bad file descriptor (os error 9)' check -
    expect 0 "$report" $nothing "$examples/one_fold.cert" run --serial a.trace --certificate f
    echo 'mesh 9' >bad.trace
    for path in '&-' /dev/full; do
        under=(sh -c "exec \"\$@\" 2>$path" sh)
        expect 5 $nothing $nothing $nothing run --serial bad.trace --certificate f
        expect 5 "$report" $nothing $nothing run --serial a.trace --certificate no_such_folder/f
        expect 0 "$report" $nothing "$examples/one_fold.cert" run --serial a.trace --certificate f
    done
    under=()
    mkfifo pipe
    head -c 1 pipe >/dev/null &
    sink=pipe expect 5 $nothing unwritten $nothing run --serial --replies long_replies --certificate f
    wait
    for path in "${!paths[@]}"; do
        expect_io $nothing "$path" "${paths[$path]}" run --serial "$path"
        expect_io "$report" "$path" "${paths[$path]}" run --serial a.trace --certificate "$path"
    done
    expect_io $nothing '' "$absent" run --serial ''
    expect_io "$report" '' "$absent" run --serial a.trace --certificate ''
    rm -f bad.trace loop pipe long_replies
}

# A file that may not be read, and one that may not be written, for whom the system asks: not root.
forbidden_files() {
    local under=()
    if [ "$(id -u)" = 0 ]; then under=(setpriv --reuid=65534 --regid=65534 --clear-groups); fi
    chmod 755 .
    cp a.trace hidden.trace
    echo before >kept
    chmod 000 hidden.trace
    chmod 444 kept
    if ! ${under[@]+"${under[@]}"} "$built" run a.trace >out 2>err; then
        echo "check: nobody but root may run the program, so forbidden files were not tried"
        return
    fi
    expect_io $nothing hidden.trace 'Permission denied (os error 13)' run --serial hidden.trace
    expect_io "$examples/one_fold.report" kept 'Permission denied (os error 13)' run --serial a.trace --certificate kept
    if [ "$(cat kept)" = before ]; then pass; else fail "a file that may not be written is to stay as it was"; fi
    rm -f hidden.trace kept
}

# Streams that take or give a byte at a time, and then fail: what stands before the write that fails is written, and no more.
short_streams() {
    local words length number under
    cp "$examples/empty.trace" empty.trace
    for words in --serial ''; do
        cp "$examples/one_fold.report" report
        "$built" run $words empty.trace >whole
        length=$(wc -c <whole)
        if [ -z "$words" ]; then echo 'audit ok' >>report; fi
        under=(env REFUSE_SHORT=1 "LD_PRELOAD=$PWD/refuse.so")
        expect 0 report $nothing "$examples/one_fold.cert" run $words a.trace --certificate f
        for ((number = 1; number <= length; number++)); do
            head -c $((number - 1)) whole >front
            under=(env REFUSE_SHORT=1 "REFUSE_WRITE=$number" "LD_PRELOAD=$PWD/refuse.so")
            expect 5 front unwritten $nothing run $words empty.trace
        done
        under=(env REFUSE_SHORT=1 "REFUSE_WRITE=$((length + 1))" "LD_PRELOAD=$PWD/refuse.so")
        expect 0 whole $nothing $nothing run $words empty.trace
    done
}

# Whether a run with a growth refused, which ended so and wrote to this folder, did well: it ended with status 3, has said so and has written
# nothing, or it went on without what it was refused and has written all.
refused_well() {
    local status=$1 at=$2 report=$3 certificate=$4
    [ -e "$at/f" ] || : >"$at/f"
    if [ "$status" = 3 ]; then
        told=$((told + 1))
        [ ! -s "$at/out" ] && cmp -s memory "$at/err" && [ ! -s "$at/f" ]
    else
        [ "$status" = 0 ] && [ ! -s "$at/err" ] && cmp -s "$report" "$at/out" && cmp -s "$certificate" "$at/f"
    fi
}

# Whether each copy of the last run, which was refused a growth, did well. `number` is then that of the last one, and else the folder has what
# the one of that number wrote.
copies_did_well() {
    local at
    while read -r _ at _ ended; do
        number=$((number + 1))
        if [ "$at" != "$number" ] || ! refused_well "$ended" "copies/$at" "$@"; then
            cp "copies/$at"/* .
            return 1
        fi
    done < <(grep '^growth ' log)
}

# Counts a run of whose growths each is refused to a copy of it. Once it has threads, further runs are refused the next growth each, until
# none is left.
expect_memory() {
    local report=$1 certificate=$2 number=0 told=0 under
    local loaded=("REFUSE_LOG=$PWD/log" "LD_PRELOAD=$PWD/refuse.so")
    shift 2
    rm -rf log copies
    mkdir copies
    under=(env REFUSE_EACH=1000000 "REFUSE_FOLDER=$PWD/copies" "${loaded[@]}")
    run "$@"
    if [ "$ended" = 3 ] || ! refused_well "$ended" . "$report" "$certificate" || ! copies_did_well "$report" "$certificate"; then
        fail "${built##*/} $* is to tell that growth $number was refused, or to write all of $report"
        return
    fi
    until grep -qx "$number growths, 0 refused" log; do
        number=$((number + 1))
        rm -f log
        under=(env "REFUSE_GROWTH=$number" "${loaded[@]}")
        run "$@"
        if ! refused_well "$ended" . "$report" "$certificate"; then
            fail "${built##*/} $* is to tell that growth $number was refused, or to write all of $report"
            return
        fi
        if ! grep -q ', 1 refused$' log; then break; fi
    done
    if [ "$told" -gt 0 ]; then pass; else fail "${built##*/} $* is to be refused a growth"; fi
}

# Growths and threads that are refused.
refused_calls() {
    local name under=(env REFUSE_THREADS=1 "LD_PRELOAD=$PWD/refuse.so")
    for name in one_fold cache_closes_down set_wherever_it_is; do
        expect_threads "$examples/$name.replies" "$examples/$name.cert" --replies "$examples/$name.trace"
    done
    under=()
    for name in one_fold second_choice adoption fold_twice set_wherever_it_is trimmed_pages \
        service_without_end begins_again; do
        audited "$examples/$name.report" >report
        expect_memory "$examples/$name.report" "$examples/$name.cert" run --serial "$examples/$name.trace" --certificate f
        expect_memory report "$examples/$name.cert" run "$examples/$name.trace" --certificate f
    done
    "$built" check a.cert >report
    expect_memory report $nothing check a.cert
}

# The user's time of a serial run of the trace, in milliseconds.
milliseconds() {
    local TIMEFORMAT=%U taken
    taken=$({ time "$built" run --serial "$1" >/dev/null 2>&1; } 2>&1)
    echo $((10#${taken/./}))
}

# Counts that names which stand close together in a table by std's hash, of a fixed seed, take about as long as others.
names_alike() {
    local alike other
    if ! command -v "${CC:-cc}" >/dev/null; then
        echo "check: there is no C compiler, so names with hashes that are alike were not tried"
        return
    fi
    [ -x names ] || "${CC:-cc}" -O2 "$top/tools/names.c" -o names || return
    if [ ! -e alike.trace ]; then
        { printf 'mesh 1\nshards 1\npages 1024\nring 1\ngens 1\n' | tee other.trace && ./names 28000 15; } >alike.trace
        printf '0 put n%05d 0\n' {1..28000} >>other.trace
    fi
    alike=$(milliseconds alike.trace) other=$(milliseconds other.trace)
    if [ "$alike" -le $((3 * other + 100)) ]; then
        pass
    else
        fail "${built##*/} run is to take about as long over names whose hashes are alike as over others: $alike and $other ms"
    fi
}

# Counts that empty lines take little memory: a text of five million of them ran out of it here.
empty_lines() {
    local under=(sh -c 'ulimit -v 300000; exec "$@"' sh)
    { printf 'mesh 1\nshards 1\npages 1\nring 1\ngens 1\n' && head -c 5000000 /dev/zero | tr '\0' '\n'; } >feeds.trace
    echo 'end pages 0 live 0 calls 0' >said
    audited said >report
    expect 0 said $nothing $nothing run --serial feeds.trace
    expect 0 report $nothing $nothing run feeds.trace
    rm feeds.trace
}

# Counts that fills which are refused, and sweeps of what they did not give, take memory by none of their keys: forty of each, of
# 262,144 keys, ran out of it here.
refused_fills() {
    local fill under=(sh -c 'ulimit -v 100000; exec "$@"' sh)
    {
        printf 'mesh 1\nshards 1\npages 1\nring 1\ngens 1\n0 fill a 256 0\n'
        for fill in {1..40}; do printf '0 fill b%d 262144 0\n0 sweep b%d 0 262144\n' "$fill" "$fill"; done
    } >refused.trace
    echo 'end pages 1 live 256 calls 20971776' >said
    audited said >report
    expect 0 said $nothing $nothing run --serial refused.trace
    expect 0 report $nothing $nothing run refused.trace
    rm refused.trace
}

# The kilobytes that a run of this trace has resident at most, serially or by threads.
kilobytes_of() {
    rm -f log
    REFUSE_LOG=$PWD/log LD_PRELOAD=$PWD/refuse.so "$built" run ${2:+"$2"} "$1" >out 2>err && sed -n 's/ kilobytes resident$//p' log
}

# Counts that a replay by threads of 16,777,216 live keys, as many as there may be, of 64 threads has at most PART times as much resident as the
# serial one, whose logs are only counted and whose calls have no receipts.
memory_by_threads() {
    local part=$1 serial threads shard
    { printf 'mesh 1\nshards 64\npages 1024\nring 1\ngens 1\n' && for shard in {0..63}; do echo "$shard fill a$shard 262144 0"; done; } >keys
    serial=$(kilobytes_of keys --serial) threads=$(kilobytes_of keys)
    if [ -n "$serial" ] && [ -n "$threads" ] && [ "$threads" -le $((part * serial)) ]; then
        pass
    else
        fail "${built##*/} run is to have at most $part times as much resident as serially: $threads and $serial KB"
    fi
    rm -f keys
}

# Streams each other of whose reads and writes is interrupted by a signal: it is made again.
interrupted_streams() {
    local under
    audited "$examples/one_fold.report" >report
    of_file run a.cert 'line 1: header' >said
    under=(env REFUSE_EINTR=1 "LD_PRELOAD=$PWD/refuse.so")
    expect 0 "$examples/one_fold.report" $nothing "$examples/one_fold.cert" run --serial a.trace --certificate f
    input=a.trace expect 0 report $nothing "$examples/one_fold.cert" run --certificate f
    expect 1 $nothing said $nothing run a.cert
    under=(env REFUSE_EINTR=1 REFUSE_SHORT=1 "LD_PRELOAD=$PWD/refuse.so")
    expect 0 "$examples/one_fold.report" $nothing "$examples/one_fold.cert" run --serial a.trace --certificate f
}

# A trace of three rounds, in each of which a thread fills a shard that is full while two others free its keys, and then each key that the
# fill was to give is looked up.
write_fills_and_frees() {
    local round key
    printf 'mesh 1\nshards 3\npages 2\nring 1\ngens 9\n0 fill a0 512 0\n'
    for round in 1 2 3; do
        printf 'mark\n0 fill a%d 600 0\n' "$round"
        printf '%d sweep a%d %d %d\n' 1 $((round - 1)) 0 256 2 $((round - 1)) 256 $((round == 1 ? 512 : 600))
        printf 'mark\n'
        for ((key = 0; key < 600; key++)); do printf '1 get a%d.%d\n' "$round" "$key"; done
    done
}

# Over such a trace and its report: whether the replies of each fill and sweep stand in the order of its calls, so that they say of the
# same keys that they were given, and of the others that there was no page, or that they are unbound, as the look-ups do. It prints how
# many fills were refused a page before they gave a key.
fills_in_order() {
    awk '
        NR == FNR {
            split($3, key, ".")
            what[FNR] = $2; name[FNR] = key[1]; next_of[FNR] = $2 == "get" ? key[2] : $2 == "sweep" ? $4 : 0
            next
        }
        $1 in what && what[$1] ~ /^(fill|get|sweep)$/ {
            key_of = name[$1] "." next_of[$1]++
            is_given = $2 == "key" || $2 == "yes" || $2 == "value"
            if (!is_given && $2 != "unbound" && !(what[$1] == "fill" && $2 == "refused")) wrong++
            if ((key_of in given) && given[key_of] != is_given) wrong++
            if (what[$1] == "get" && is_given && name[$1] "." $3 != key_of) wrong++
            given[key_of] = is_given
            if (what[$1] == "fill" && !is_given) refused[$1] = 1
            if (what[$1] == "fill" && is_given && ($1 in refused)) met[$1] = 1
        }
        END { for (fill in met) fills++; print fills + 0; exit wrong > 0 }
    ' "$1" "$2"
}

# Counts that so many runs by threads tell the replies of each line in the order of its calls, wherever the threads meet. They go on until
# a fill was refused a page and then gave a key, for a hundred times as many runs at most.
fills_and_frees() {
    local runs=$1 number fills met=0
    write_fills_and_frees >fills.trace
    for ((number = 0; number < runs || (met == 0 && number < 100 * runs); number++)); do
        run run --replies fills.trace
        if [ "$ended" != 0 ] || [ -s err ] || ! fills=$(fills_in_order fills.trace out) || [ "$(tail -n 1 out)" != 'audit ok' ]; then
            fail "${built##*/} run --replies is to tell the replies of each line in the order of its calls"
            return
        fi
        met=$((met + fills))
    done
    echo "check: in $number runs $met of $((3 * number)) fills were refused a page and then gave a key"
    if [ "$met" -gt 0 ]; then pass; else fail "in one of $number runs a fill is to meet the frees of other threads"; fi
    rm fills.trace
}

# All of it. Nothing can be loaded before a program that was linked without a loader.
hostile_use() {
    failing_streams
    forbidden_files
    names_alike
    empty_lines
    refused_fills
    if [ "$built" != "$program" ]; then return; fi
    fills_and_frees 20
    longest_texts
    if ! build_library texts || ! build_library refuse; then
        fail "the kit's clang is to compile what is loaded before the program"
        return
    fi
    cut_texts
    cut_texts_by_threads
    short_streams
    interrupted_streams
    refused_calls
    deferred_frees
    memory_by_threads 2
}

# The names of the tests of a program of tests.
tests_of() {
    "$1" --list | sed -n 's/: test$//p'
}

# Runs a test with growths refused as these words say. One that doesn't end in time has failed.
run_refused() {
    local tests=$1 test=$2
    shift 2
    rm -f log
    timeout "$LONGEST" env "$@" "REFUSE_LOG=$PWD/log" "LD_PRELOAD=$PWD/refuse.so" "$tests" "$test" >out 2>err
}

# Counts the tests of `refusals`, each of which refuses each growth of its calls by itself: it
# passes, and growths were refused.
refusing_tests() {
    local test
    for test in "$@"; do
        if run_refused "$tests" "$test" && grep -q ' [1-9][0-9]* refused$' log; then
            pass
        else
            fail "$test is to pass, and to have growths refused"
        fi
    done
}

# How many growths were refused to a copy of the last run, each in its turn; whether all copies ended with this status.
copies_of() {
    awk -v status="$1" '/^growth / { wrong += $2 != ++copies || $4 != status } END { print copies + 0; exit wrong > 0 }' log
}

# Counts tests that make a refused call again: they pass whichever of their first 300 growths is
# refused, each to a copy of one process, or once that has begun threads, in a process of its own.
repeating_tests() {
    local test number
    for test in "$@"; do
        if ! run_refused "$tests" "$test" REFUSE_EACH=300 || ! number=$(copies_of 0); then
            fail "$test is to pass whichever growth is refused: $(grep -v ' ends 0$' log)"
            continue
        fi
        if grep -q "^$number growths, " log; then pass && continue; fi
        for ((number++; number <= 300; number++)); do
            if ! run_refused "$tests" "$test" "REFUSE_GROWTH=$number"; then
                fail "$test is to pass where growth $number is refused"
                continue 2
            fi
            if grep -q ', 0 refused$' log; then break; fi
        done
        pass
    done
}

# Tests of the crates of tests with growths refused, over the program that tools/tried made of them. A test that ends in `_in_full` goes on
# from the first rounds of another, which has more growths than are refused.
refused_tests() {
    local before=$passed kind names=()
    : >f
    if ! build_library refuse; then
        fail "the kit's clang is to compile what is loaded before the tests"
        return
    fi
    for kind in refusals:: plan_tests:: runner_tests::refused::; do
        mapfile -t names < <(tests_of "$tests" | grep "^$kind" | grep -v '_in_full$')
        case $kind in
            refusals::) refusing_tests "${names[@]}" ;;
            *) repeating_tests "${names[@]}" ;;
        esac
        if [ "${#names[@]}" = 0 ]; then fail "there is no test $kind in $tests"; fi
    done
    echo "check: tests with growths refused: $((passed - before)) passed"
}
