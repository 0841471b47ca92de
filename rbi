#!/bin/sh
# Runs the program with the given words, in the caller's folder; or the tools, where it is called by the name rbi-tools. Where
# that is missing or older than its sources, it is built first: the crates that it needs are proved, as many at once as there
# are processors and memory, and the program is tried on its stored run. A failed build ends with status 70. With `try` before
# the words it is run before any proof: compiled with checks, in a minute or two, while a build may go on beside it.
case ${0##*/} in
rbi-tools) crate=rbi_tools trial='fmt data/p' ;;
*) crate=rbi trial='both data/p data/s' ;;
esac
top=$(dirname "$(readlink -f "$0")")
out=$top/crates/$crate/out
program=$out/$crate
# Both programs are built in one folder, so that what was proved for one needn't be proved for the other.
work=$top/crates/rbi/out/work

# Runs the program with the words, unproved, on copies of the files that they name.
try_unproved() {
    count=$#
    for word; do
        if [ -f "$word" ]; then
            set -- "$@" --data "$word=$(readlink -f "$word")"
        fi
    done
    set -- "$@" --
    while [ "$count" -gt 0 ]; do
        word=$1
        shift
        set -- "$@" "$word"
        count=$((count - 1))
    done
    printf 'rbi: a trial before any proof, compiled with checks; it takes a minute or two\n' >&2
    cd "$top/crates/$crate" && exec rt try "$@"
}

# The lines of crates.txt for the program and the crates that it stands on.
needed_lines() {
    awk -F: -v program=$crate '
        function need(crate, parts, count, i) {
            if (!(crate in below) || crate in needed) return
            needed[crate] = 1
            count = split(below[crate], parts, " ")
            for (i = 1; i <= count; i++) need(parts[i])
        }
        !/^#/ && NF > 1 { split($1, words, " "); names[++lines] = words[1]; below[words[1]] = $2; whole[lines] = $0 }
        END { need(program); for (i = 1; i <= lines; i++) if (names[i] in needed) print whole[i] }
    ' "$top/crates.txt"
}

# Whether the program is missing, or older than a file of its crates.
is_old() {
    cd "$top" || return
    [ ! -x "$program" ] ||
        [ -n "$(find crates.txt $(printf 'crates/%s ' $needed) -name out -prune -o -type f -newer "$program" -print)" ]
}

# Copies the needed crates into a folder of their own, since `rt all` takes each crate of a crates.txt. What was proved there
# before stays. The crates.txt is taken away after the build: `rt ci` wants one alone.
gather() {
    for each in $needed; do
        from=$top/crates/$each to=$work/crates/$each
        mkdir -p "$to" && find "$to" -mindepth 1 -maxdepth 1 ! -name out -exec rm -rf {} + &&
            find "$from" -mindepth 1 -maxdepth 1 ! -name out -exec cp -Rp {} "$to" \; || return
    done
    trap 'rm -f "$work/crates.txt"' EXIT
    needed_lines >"$work/crates.txt"
}

# Proves the crates and builds the program in that folder. All others stand on rb_trees, so that it is proved alone, on all processors.
build() {
    : >"$out/begun" && gather && cd "$work/crates/rb_trees" && rt check --jobs "$jobs" && cd "$work" && rt all check --jobs "$jobs" &&
        cd "crates/$crate" && rt run -- $trial &&
        touch -r "$out/begun" "out/$crate" && cp -p "out/$crate" "$program.new" && mv "$program.new" "$program"
}

# Says something of the build, with the minutes and seconds since it began.
say() {
    spent=$(($(date +%s) - began))
    printf 'rbi: %d:%02d %s\n' $((spent / 60)) $((spent % 60)) "$1" >&2
}

# How many bytes these crates have, proofs and all.
bytes_of() {
    for each; do
        find "$top/crates/$each" -name out -prune -o -type f -exec cat {} +
    done | wc -c
}

# Follows the build's output, and says which crate is proved, how many are left, and about how long they take, by the bytes
# that are proved so far.
follow() {
    all=$(bytes_of $needed) done=0
    while IFS= read -r line; do
        case $line in
        "== summary") say "all is proved; now the program is compiled and tried" ;;
        "== "*) proving=${line#== } left=$((left - 1)) done=$((done + $(bytes_of "${line#== }"))) ;;
        "logic=proved "*)
            if [ "$done" -gt 0 ] && [ "$left" -gt 0 ]; then
                minutes=$((($(date +%s) - began) * (all - done) / done / 60 + 1))
                say "$proving is proved; crates left: $left, in about $minutes min"
            fi
            ;;
        "rt: waiting for "*) say "${line#rt: }" ;;
        esac
    done
}

if [ "$1" = try ]; then
    shift
    try_unproved "$@"
    exit
fi

needed=$(needed_lines | sed 's/[: ].*//')
if (is_old); then
    began=$(date +%s) left=$(echo "$needed" | wc -l)
    jobs=$(awk -v most="$(getconf _NPROCESSORS_ONLN)" '/^MemAvailable/ { jobs = int($2 / 3000000) }
        END { print jobs < 1 ? 1 : jobs < most ? jobs : most }' /proc/meminfo)
    mkdir -p "$out" "$work"
    say "building the program: $left crates are proved first, $jobs side by side"
    { (build) 2>&1 </dev/null; echo $? >"$out/status"; } | tee "$out/build.log" | follow
    if [ "$(cat "$out/status")" != 0 ]; then
        say "the build failed, see $out/build.log"
        exit 70
    fi
fi
exec "$program" "$@"
