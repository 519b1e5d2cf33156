#!/bin/sh
# Replays the witnesses of the examples on the Java virtual machine at hand: examples/replay-witnesses.sh, from any folder.
#
# A check of the two releases writes the witness of each finding and each collision, and Replay.java loads, links and runs it: with the old
# release it gives no error, and with the new one the printed error. There is a line for each witness, and a last one with the numbers.
# The status is 1 where a witness fails, or where a rule or a collision has no example. Without a JDK, of version 17 or later, nothing is
# replayed, which is said, and the status is 0, or 1 where JCOMPAT_ALL=1 asks for all.
set -eu

cd "$(dirname "$0")/.."

skip() {
    printf 'replay-witnesses: not run: %s\n' "$1"
    [ "${JCOMPAT_ALL:-}" != 1 ] || exit 1
    exit 0
}

fail() {
    printf 'replay-witnesses: %s\n' "$1" >&2
    exit 1
}

command -v java >/dev/null && command -v javac >/dev/null || skip 'java and javac are not on the path'
# as "javac 17.0.15"
version=$(javac -version 2>&1)
version=${version#javac }
version=${version%%[!0-9]*}
[ "${version:-0}" -ge 17 ] || skip 'the classes of the examples are for Java 17, and javac is older'

made=$(mktemp -d)
trap 'rm -rf "$made"' EXIT

# the new release breaks clients, so the status of the check is 1
status=0
./jcompat check --platform examples/platform --old examples/old --new examples/new --witness "$made/witnesses" >"$made/report" || status=$?
[ "$status" -eq 1 ] || fail "the check ended with the status $status"

for rule in H1 H2 H3 H4 H5 H6 H7 H8 H9 Constant Capture Final; do
    grep -q "^[0-9]* $rule " "$made/report" || fail "the examples have no $rule"
done

java examples/Replay.java examples/old examples/new "$made/witnesses" "$made/report"
