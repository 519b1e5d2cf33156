#!/bin/sh
# Runs the clients of examples/rules on the Java virtual machine at hand: examples/replay-clients.sh, from any folder.
#
# ReplayClients.java compiles each client against its old release, and runs it with both: with the old one it works, and with the new one it
# ends with the error that the page of its rule shows (docs/FINDINGS.md). Where the program is built, its reports of the releases are compared
# with those of the page, too, and the documents of check-jars are validated (examples/documents.sh). There is a line for each client, and a last one with the numbers. The status is 1 where something isn't so.
# Without a JDK, of version 17 or later, nothing is run, which is said, and the status is 0, or 1 where JCOMPAT_ALL=1 asks for all.
set -eu

cd "$(dirname "$0")/.."

skip() {
    printf 'replay-clients: not run: %s\n' "$1"
    [ "${JCOMPAT_ALL:-}" != 1 ] || exit 1
    exit 0
}

command -v java >/dev/null && command -v javac >/dev/null || skip 'java and javac are not on the path'
# as "javac 17.0.15"
version=$(javac -version 2>&1)
version=${version#javac }
version=${version%%[!0-9]*}
[ "${version:-0}" -ge 17 ] || skip 'the clients of the examples are for Java 17, and javac is older'

made=$(mktemp -d)
trap 'rm -rf "$made"' EXIT

# in a clone it may not be built yet, which would take long
program=./jcompat
[ ! -d crates ] || [ -x crates/jcompat/out/jcompat ] || program=
java examples/ReplayClients.java examples/rules examples/platform docs/FINDINGS.md "$made" ${program:+"$program"}
examples/documents.sh "$made"
