#!/bin/sh
# Makes the image of tools/Containerfile out of what tools/package makes, and compares the examples in it: examples/container.sh, from any folder.
#
# The status, and what is printed, have to be those of check-jars here. JCOMPAT_BASE names another image to begin with than the one of the file. Without podman, or docker
# with its engine, or without the built program, nothing is made, which is said, and the status is 0, or 1 where JCOMPAT_ALL=1 asks for all.
set -eu

cd "$(dirname "$0")/.."

skip() {
    printf 'container: not run: %s\n' "$1"
    [ "${JCOMPAT_ALL:-}" != 1 ] || exit 1
    exit 0
}

fail() {
    printf 'container: %s\n' "$1" >&2
    exit 1
}

engine=
for tool in podman docker; do
    [ -n "$engine" ] || ! command -v "$tool" >/dev/null || ! "$tool" info >/dev/null 2>&1 || engine=$tool
done
[ -n "$engine" ] || skip 'there is no podman, and no docker whose engine answers'
[ -x crates/jcompat/out/jcompat ] || skip 'the program is not built'

made=$(mktemp -d)
trap 'rm -rf "$made"' EXIT
tools/package "$made/out" >"$made/said" || fail 'it is not packed'
"$engine" build -q ${JCOMPAT_BASE:+--build-arg "BASE=$JCOMPAT_BASE"} -t jcompat-try "$made/out" >"$made/said" 2>&1 || { cat "$made/said" && skip 'the image is not built, as the lines above say: without a network there is nothing to begin with'; }
printf 'container: the image: ok\n'

# try WORD..: in the image, and here
try() {
    status=0
    tools/check-jars examples/old examples/new "$@" >"$made/here" 2>/dev/null || status=$?
    inside=0
    "$engine" run --rm -v "$PWD:/work:ro" -v jcompat-try:/cache jcompat-try examples/old examples/new "$@" >"$made/inside" 2>/dev/null || inside=$?
    [ "$inside" -eq "$status" ] || fail "the status is $inside, and not $status"
    cmp "$made/here" "$made/inside" || fail 'another report is printed'
}
try --needed
try
try
"$engine" volume rm jcompat-try >/dev/null
printf 'container: the examples, without a cache and with one: ok\n'
