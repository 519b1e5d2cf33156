#!/usr/bin/env bash
# Asks a Java virtual machine whether what a check says is so:  bench/judge.sh PLATFORM PAIR..
#
# PLATFORM is a folder of class files, as jdk of bench/inputs.sh, of the version of the java on the path; a PAIR a folder with two releases, old and
# new, and where these need libraries, with their class files in the folder with. Each pair is checked, the witness of each line is written, and
# examples/Replay.java loads and runs it with both releases. For each warning bench/Warned.java looks for a client that breaks. Where the pair has a
# folder clients, with classes that were compiled against the old release, these are linked by the program with both releases, and bench/Resolve.java
# asks the machine for each outcome.
#
# A pair in which a release has a module-info.class is checked with --modular, and each of its witnesses is run from the class path, beside the release on
# the module path; its clients aren't asked.
#
# PROGRAM is the program, ./jcompat of this clone where it isn't set. With SAMPLE=N at most N witnesses of each rule of a pair are run, spread evenly.
#
# What is printed are tables in Markdown: of the pairs, with the commit, the date and the machine, of the rules, of warnings and of the clients; and why
# witnesses give another error than the printed one. What isn't as printed goes to standard error, line by line, and the status is 1 where a witness fails
# or an outcome differs. A pair of the JDK's own classes can't be judged so.
set -eu
[ $# -ge 2 ] || { echo 'usage: bench/judge.sh PLATFORM PAIR..' >&2; exit 2; }
here=$(dirname -- "$(dirname -- "$(readlink -f -- "$0")")")
program=${PROGRAM:-$here/jcompat}
. "$here/bench/common.sh"
platform=$(readlink -f -- "$1")
shift
made=$(mktemp -d)
trap 'rm -rf -- "$made"' EXIT
status=0

classes() { find "$1" -name '*.class' | wc -l; }

# number WORD: how many lines of the replay begin with it
number() { grep -c "^$1 " "$made/replay" || true; }

# sampled: the lines of the report whose witnesses are run; a finding on a class that clients can't name has a seat
sampled() {
    awk -v most="${SAMPLE:-999999}" '
        { kind = $2 ~ /^H[34]$/ && $6 != "-" ? $2 "-" : $2 }
        !/^[0-9]/ { next }
        NR == FNR { count[kind]++; next }
        { part = most / count[kind]; if (part >= 1 || int(++seen[kind] * part) > int((seen[kind] - 1) * part)) print }' "$made/report" "$made/report"
}

# judge NAME FOLDER: adds a row
judge() {
    local name=$1 code=0 over libraries=() modular=() findings collisions
    [ ! -f "$2/old/module-info.class" ] && [ ! -f "$2/new/module-info.class" ] || modular=(--modular)
    [ ! -d "$2/with" ] || libraries=("$2/with/")
    over=$(over "$2")
    rm -rf -- "$made/witnesses"
    "$program" check --platform "$over" --old "$2/old" --new "$2/new" --warn "${modular[@]}" --witness "$made/witnesses" >"$made/report" || code=$?
    [ "$code" -le 1 ] || { echo "judge: $name can't be checked" >&2; status=1; return; }
    : >"$made/replay"
    if [ -d "$made/witnesses" ]; then
        sampled >"$made/sampled"
        java_alone Replay "${modular[@]}" "$2/old" "$2/new" "$made/witnesses" "$made/sampled" "${libraries[@]}" >"$made/replay" || status=1
    fi
    read -r _ findings _ collisions _ < <(grep -E "^(in)?compatible: " "$made/report")
    printf '| %s | %s to %s | %s | %s | %s | %s | %s | %s | %s | %s |\n' "$name" "$(classes "$2/old")" "$(classes "$2/new")" \
        "$(grep -c '^note unloadable old ' "$made/report" || true)" "$findings" "$collisions" "$(grep -cE '^(ok|differs|hidden|FAILED) ' "$made/replay" || true)" "$(number ok)" "$(number differs)" "$(number hidden)" "$(number FAILED)"
    sed "s|^|$name: |" "$made/replay" >>"$made/all"
    java_alone Warned "$2/old" "$2/new" "$made/report" "${libraries[@]}" >"$made/warned" 2>/dev/null || status=1
    sed -n "s|^count |$name |p" "$made/warned" >>"$made/warnings"
    [ ! -d "$2/clients" ] || [ ${#modular[@]} -gt 0 ] || for side in old new; do link "$name" "$2" "$over" "$side" "${libraries[@]}"; done
}

# link NAME FOLDER PLATFORM SIDE [LIBRARY]: what comes of the clients, and what the machine says of it
link() {
    local name=$1 folder=$2 over=$3 side=$4 code=0 compared errors verified unasked differ
    shift 4
    "$program" link --platform "$over" --release "$folder/$side" --client "$folder/clients" >"$made/outcomes" || code=$?
    [ "$code" -le 1 ] || { echo "judge: the clients of $name can't be linked" >&2; status=1; return; }
    java_alone Resolve "$made/outcomes" "$folder/$side" "$folder/clients" "$@" >"$made/resolved" || status=1
    read -r _ compared _ errors _ verified _ unasked _ differ < <(tail -n 1 "$made/resolved")
    echo "| $name, $side | $(grep -c '^class ' "$made/outcomes") | $compared | $errors | $verified | $unasked | $differ |" >>"$made/clients"
    sed -n "s|^differs |$name, $side: |p" "$made/resolved" >&2
}

mkdir "$made/compiled"
javac -J-XX:TieredStopAtLevel=1 -d "$made/compiled" "$here/examples/Replay.java" "$here/bench/Resolve.java" "$here/bench/Warned.java" "$here/bench/Written.java" 2>"$made/said" || { cat "$made/said" >&2; exit 1; }
printf 'Commit %s, %s, %s processors, %s GB of memory, %s\n\n' "$(git -C "$here" rev-parse --short=10 HEAD 2>/dev/null || echo -)" "$(date -u +%F)" "$(nproc)" \
    "$(awk '/^MemTotal/ { printf "%d", $2 / 1000000 }' /proc/meminfo)" "$(java -version 2>&1 | head -n 1)"
printf '| pair | classes | of the old ones not compared | findings | collisions | witnesses run | give the printed error | give another, for a known reason | hidden by the library | fail |\n'
printf '|---|---|---|---|---|---|---|---|---|---|\n'
: >"$made/all"
: >"$made/clients"
: >"$made/warnings"
for pair; do judge "$(basename -- "$pair")" "${pair%/}"; done

# a finding on a class that clients can't name has a seat
printf '\n| line | witnesses | give the printed error | give another, for a known reason | hidden by the library | fail |\n|---|---|---|---|---|---|\n'
awk '$2 ~ /^(ok|differs|hidden|FAILED)$/ {
    rule = $4 ~ /^H[34]$/ && $8 != "-" ? $4 " of a hidden class" : $4
    all[rule]++; n[rule, $2]++
} END {
    for (rule in all) printf "| %s | %d | %d | %d | %d | %d |\n", rule, all[rule], n[rule, "ok"], n[rule, "differs"], n[rule, "hidden"], n[rule, "FAILED"]
}' "$made/all" | LC_ALL=C sort

# the reason stands behind the line, which has no colon and a space
sed -n 's/^\([^ ]*\): differs [^ ]* \([^ ]*\) .*Error: \(.*\), with the new .*/\2: \3/p; s/^\([^ ]*\): differs [^ ]* \([^ ]*\) .*Error: \([^,]*\)$/\2: \3/p' "$made/all" |
    sed -E 's/[^ ]+ is no [^ ]+ any more/the receiver'"'"'s class has lost the one that the act names/; s/faults of [^ ]+/faults of a class/; s/is gone: .*/is gone/' |
    sort | uniq -c | sed '1s/^/\n/; s/^\(\n\{0,1\}\) *\([0-9]*\) \(.*\)/\1- \2 of \3/'
if [ -s "$made/warnings" ]; then
    printf '\n| warning | client that breaks | error with the new release | in pairs | warnings |\n|---|---|---|---|---|\n'
    awk '{ what = $3 " | " ($4 == "none" ? "none of these | -" : $4 == "gone:" ? "each: the method is gone | " $5 : $4 " | " $5); sub(":", "", what); n[what] += $2; pairs[what]++ }
        END { for (what in n) printf "| %s | %d | %d |\n", what, pairs[what], n[what] }' "$made/warnings" | LC_ALL=C sort
fi
if [ -s "$made/clients" ]; then
    printf '\n| clients of, with | classes | outcomes compared | of these errors | classes verified | not asked | differ |\n|---|---|---|---|---|---|---|\n'
    cat "$made/clients"
fi
grep -E '^[^ ]*: (hidden|FAILED) ' "$made/all" >&2 || true
exit "$status"
