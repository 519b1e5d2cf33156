#!/usr/bin/env bash
# Counts the lines on calls, and asks a Java virtual machine whether they are so:  bench/calls.sh PLATFORM PAIR..
#
# PLATFORM and the pairs are as for bench/judge.sh. Each pair is checked with --dropped and --calls. bench/References.java asks the machine whose java is on the
# path which references of clients break, and bench/Refused.java makes a client of each line on access and runs it.
#
# PROGRAM is the program, ./jcompat of this clone where it isn't set. Where RUNS=N is set, the check of each pair, and that of an empty release, is measured
# without and with --calls: the least processor time of N runs.
#
# What is printed are tables in Markdown: of the lines of each kind, with how many on access refuse a client; of references; and of times. A line on a reference
# that doesn't break, a reference that breaks and has neither such a line nor a finding H8, and a line on access that refuses no client go to standard error, and
# the status is 1 then. A pair of the JDK's own classes can't be judged so.
set -eu
[ $# -ge 2 ] || { echo 'usage: bench/calls.sh PLATFORM PAIR..' >&2; exit 2; }
here=$(dirname -- "$(dirname -- "$(readlink -f -- "$0")")")
program=${PROGRAM:-$here/jcompat}
. "$here/bench/common.sh"
platform=$(readlink -f -- "$1")
shift
made=$(mktemp -d)
trap 'rm -rf -- "$made"' EXIT
status=0

# lines KIND: how many lines on calls are of the kind
lines() { grep -c "^call .* $1\$" "$made/report" || true; }

# sorted_of WORD: class and member of what the machine says with this word
sorted_of() { awk -v word="$1" '$1 == word { sub(/:$/, "", $3); print $2, $3 }' "$made/asked" | LC_ALL=C sort -u; }

# refused WORD: of how many lines on access the machine says so
refused() { awk -v word="$1" '$1 == "count" && $3 == word { n = $2 } END { print n + 0 }' "$made/refused"; }

# told NAME WHAT FILE: each line of the file, to standard error
told() {
    [ -s "$3" ] || return 0
    sed "s|^|$1: $2 |" "$3" >&2
    status=1
}

# judge NAME FOLDER: adds a row to each table
judge() {
    local name=$1 code=0 over libraries=() asked broken bridged unasked
    [ ! -d "$2/with" ] || libraries=("$2/with")
    over=$(over "$2")
    "$program" check --platform "$over" --old "$2/old" --new "$2/new" --dropped --calls >"$made/report" || code=$?
    [ "$code" -le 1 ] || { echo "calls: $name can't be checked" >&2; status=1; return; }
    java_alone References "$2/old" "$2/new" "${libraries[@]}" >"$made/asked"
    java_alone -Djava.awt.headless=true Refused "$2/old" "$2/new" "$made/report" "${libraries[@]}" >"$made/refused" 2>/dev/null
    printf '| %s | %s | %s | %s | %s | %s | %s | %s | %s |\n' "$name" "$(grep -c '^dropped ' "$made/report" || true)" "$(lines reference)" "$(lines joined)" \
        "$(lines constants)" "$(lines access)" "$(refused refused)" "$(refused uncompiled)" "$(refused hidden)"
    awk '$1 == "call" && $4 == "reference" { print $2, $3 }' "$made/report" | LC_ALL=C sort >"$made/lines"
    sorted_of broken >"$made/broken"
    sorted_of bridged >"$made/bridged"
    # a finding that a call is closed tells more
    { cat "$made/lines"; awk '$2 == "H8" { print $3, $4 }' "$made/report"; } | LC_ALL=C sort >"$made/told"
    LC_ALL=C comm -23 "$made/lines" "$made/broken" | LC_ALL=C comm -23 - "$made/bridged" >"$made/idle"
    LC_ALL=C comm -13 "$made/told" "$made/broken" >"$made/untold"
    read -r _ _ _ asked _ broken _ bridged _ _ _ _ _ _ _ unasked < <(tail -n 1 "$made/asked")
    printf '| %s | %s | %s | %s | %s | %s | %s | %s |\n' "$name" "$asked" "$broken" "$bridged" "$(LC_ALL=C comm -12 "$made/lines" "$made/bridged" | wc -l)" "$(wc -l <"$made/idle")" \
        "$(wc -l <"$made/untold")" "$unasked" >>"$made/references"
    sed -n 's/^differs call //p' "$made/refused" >"$made/unrefused"
    told "$name" 'breaks none:' "$made/idle"
    told "$name" 'breaks without a line:' "$made/untold"
    told "$name" 'refuses none:' "$made/unrefused"
    [ -z "${RUNS:-}" ] || measure "$name" "$over" "$2/old" "$2/new"
}

# measure NAME PLATFORM OLD NEW: adds a row of times
measure() {
    local without with
    read -r without _ < <(least "$program" check --platform "$2" --old "$3" --new "$4")
    read -r with _ < <(least "$program" check --platform "$2" --old "$3" --new "$4" --calls)
    printf '| %s | %s | %s |\n' "$1" "$without" "$with" >>"$made/times"
}

mkdir "$made/compiled" "$made/nothing"
javac -J-XX:TieredStopAtLevel=1 -d "$made/compiled" "$here/bench/References.java" "$here/bench/Refused.java" "$here/bench/Warned.java" "$here/bench/Written.java" 2>"$made/said" ||
    { cat "$made/said" >&2; exit 1; }
[ -z "${RUNS:-}" ] || measure 'an empty release' "$platform" "$made/nothing" "$made/nothing"
printf '| pair | dropped interfaces | `reference` | `joined` | `constants` | `access` | refuse a client | refuse one, but `javac` compiles none | hidden by the library |\n'
printf '|---|---|---|---|---|---|---|---|---|\n'
for pair; do judge "$(basename -- "$pair")" "$(readlink -f -- "$pair")"; done
printf '\n| pair | references asked | of them break | break, but `javac` writes none | lines on the last | lines on none of these | break without a line | not asked |\n'
printf '|---|---|---|---|---|---|---|---|\n'
cat "$made/references"
if [ -n "${RUNS:-}" ]; then
    printf '\n| seconds of the check of | without `--calls` | with it |\n|---|---|---|\n'
    cat "$made/times"
fi
exit "$status"
