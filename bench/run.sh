#!/usr/bin/env bash
# Measures the program beside its yardstick:  bench/run.sh PROGRAM INPUTS
#
# INPUTS is a folder that bench/inputs.sh has made. A line for each input: how many class files and bytes the program
# reads, its processor time (of the user and of the system) and peak memory, the processor time of finding and reading the
# same files by `cat`, and how many times that the program takes. Each is the least of RUNS runs (3), after one that
# brings the files into memory.
set -u
. "$(dirname -- "$(readlink -f -- "$0")")/common.sh"
program=$(readlink -f -- "${1:?usage: bench/run.sh PROGRAM INPUTS}") || exit 1
cd -- "${2:?usage: bench/run.sh PROGRAM INPUTS}" || exit 1
type -P time >/dev/null || { echo "run: no program time is installed" >&2; exit 1; }
log=$(mktemp) || exit 1
trap 'rm -f -- "$log"' EXIT

read_by_cat() {
    find -L "$@" -name '*.class' -print0 | xargs -0 cat
}
export -f read_by_cat

# row NAME PLATFORM OLD NEW [STATUS]: of a run that ends with a report, or with this status
row() {
    [ -d "$2" ] && [ -d "$3" ] && [ -d "$4" ] || { echo "run: no input for $1" >&2; return; }
    local files bytes seconds peak cat
    read -r files bytes < <(find -L "$2" "$3" "$4" -name '*.class' -printf '%s\n' | awk '{ b += $1 } END { print NR, b + 0 }')
    "$program" check --platform "$2" --old "$3" --new "$4" >/dev/null 2>"$log"
    # a report has the status 0 or 1; every other status comes with a line of its own
    local status=$?
    [ $status -le 1 ] || [ $status -eq "${5:-0}" ] || { echo "run: no report on $1: $(cat "$log")" >&2; return; }
    read -r seconds peak < <(least "$program" check --platform "$2" --old "$3" --new "$4")
    read -r cat _ < <(least bash -c 'read_by_cat "$@"' bash "$2" "$3" "$4")
    awk -v name="$1" -v files="$files" -v bytes="$bytes" -v s="$seconds" -v peak="$peak" -v cat="$cat" 'BEGIN {
        printf "%-34s %8d %11d %8.2f s %8.0f MB %8.2f s %7s\n", name, files, bytes, s, peak / 1024, cat, (cat > 0 ? sprintf("%.1f", s / cat) : "-") }'
}

printf '%-34s %8s %11s %10s %11s %10s %7s\n' input classes bytes program peak cat ratio
# The old release declares what the platform does, which is seen once all files are read: no table is made.
row 'reading the JDK alone' jdk root nothing 3
row 'an empty release over the JDK' jdk nothing nothing
row 'an empty release over java.base' base nothing nothing
row 'Tomcat over the JDK' jdk tomcat/old tomcat/new
row 'JUnit 3 and 4 over the JDK' jdk junit/old junit/new
row 'the API of JDK 7 and of JDK 8' root api/old api/new
