# What scripts of this folder share. They source it; `made` is a folder of theirs, with a folder `compiled` of Java classes, and `platform` the platform.

# java_alone WORD..: a machine that leaves the others their processors
java_alone() { java -XX:TieredStopAtLevel=1 -XX:+UseSerialGC -cp "$made/compiled" "$@"; }

# over FOLDER: the platform, with the libraries of a pair
over() {
    [ -d "$1/with" ] || { printf '%s\n' "$platform"; return; }
    rm -rf -- "$made/platform"
    # links where both folders lie on one disk
    cp -Rl -- "$platform" "$made/platform" 2>/dev/null || { rm -rf -- "$made/platform" && cp -R -- "$platform" "$made/platform"; }
    cp -R --remove-destination -- "$1/with/." "$made/platform"
    printf '%s\n' "$made/platform"
}

# least COMMAND..: the least seconds of processor time of RUNS runs (3), and the least kilobytes at the peak
least() {
    local time log
    time=$(type -P time) || { echo "no program time is installed" >&2; return 1; }
    log=$(mktemp)
    for _ in $(seq "${RUNS:-3}"); do
        "$time" -q -o "$log" -f '%U %S %M' "$@" >/dev/null 2>&1
        cat "$log"
    done | awk '{ s = $1 + $2; if (NR == 1 || s < t) t = s; if (NR == 1 || $3 < m) m = $3 } END { printf "%.2f %d\n", t, m }'
    rm -f -- "$log"
}
