#!/bin/sh
# Packs the program, and tries what tools/package makes: examples/packages.sh, from any folder.
#
# From the archive and from the Debian package, unpacked to a folder, check-jars compares the releases of the examples as it does here, report-page makes a page, and no
# document names a file that isn't packed. Without dpkg-deb, a JDK or the built program nothing is packed, which is said, and the status is 0, or 1 where
# JCOMPAT_ALL=1 asks for all.
set -eu

cd "$(dirname "$0")/.."

lacks() {
    printf 'packages: not run: %s\n' "$1"
    [ "${JCOMPAT_ALL:-}" != 1 ] || exit 1
}

fail() {
    printf 'packages: %s\n' "$1" >&2
    exit 1
}

for tool in dpkg-deb gzip git jar javac java strip tar; do
    command -v "$tool" >/dev/null || { lacks "$tool is not on the path" && exit; }
done
[ -x crates/jcompat/out/jcompat ] || { lacks 'the program is not built' && exit; }
git rev-parse --verify -q HEAD >/dev/null || { lacks 'this is no clone' && exit; }

top=$PWD
made=$(mktemp -d)
trap 'rm -rf "$made"' EXIT
export XDG_CACHE_HOME="$made/cache"
version=$(tools/version)
tools/package "$made/out" >"$made/said" || fail 'it is not packed'
mkdir "$made/archive" "$made/root"
tar -xzf "$made"/out/*.tar.gz -C "$made/archive" --strip-components 1
dpkg-deb -x "$made"/out/*.deb "$made/root"

# try NAME TOP TOOLS: what is unpacked to the folder works, with its tools in the other one
try() {
    # the program stands at the top of the archive, and beside the tools of the package
    PATH=$3:$2:$BEFORE
    status=0
    check-jars examples/old examples/new --needed --json >"$made/document" || status=$?
    [ "$status" -eq 1 ] || fail "$1: check-jars ends with the status $status"
    report-page "$made/document" examples/old examples/new >"$made/page" || fail "$1: there is no page"
    grep -q '<li id=n12 ' "$made/page" || fail "$1: the page lacks a line"
    status=0
    affected examples/old examples/new examples/client --needed >"$made/said" || status=$?
    [ "$status" -eq 1 ] && grep -q '^affected: 1 clients, 1 broken, ' "$made/said" || fail "$1: affected ends with the status $status"
    annotate <"$made/document" | grep -q '^### incompatible' || fail "$1: nothing is told to a review"
    for tool in check-jars affected report-page annotate; do
        [ "$("$tool" --version)" = "jcompat $version" ] || fail "$1: $tool has another version than $version"
        "$tool" --help | grep -q "^usage: $tool" || fail "$1: $tool has no help"
    done
    printf 'packages: %s: ok\n' "$1"
}
BEFORE=$PATH
unset GITHUB_STEP_SUMMARY
try 'the archive' "$made/archive" "$made/archive/tools"
try 'the Debian package' "$made/root/usr/share/doc/jcompat" "$made/root/usr/bin"
PATH=$BEFORE

! grep -rnE 'tools/(check-jars|affected|report-page|annotate)|\./jcompat ' "$made/root/usr/share/doc/jcompat" --include='*.md' || fail 'a document of the package calls what is not on the path'
[ -x "$made/root/usr/bin/jcompat-check-jars" ] || fail 'the earlier name is gone'
printf 'packages: the documents of the package call what is on the path: ok\n'

# another processor than the program's, and a Java that is too old
cp -R "$made/archive" "$made/elsewhere"
printf '\267' | dd of="$made/elsewhere/jcompat" bs=1 seek=18 conv=notrunc 2>/dev/null
status=0
"$made/elsewhere/tools/check-jars" examples/old examples/new >"$made/said" 2>&1 || status=$?
[ "$status" -eq 70 ] && grep -q "jcompat doesn't run here: it needs Linux on x86-64, with glibc 2.34 or later" "$made/said" || fail "a program for another processor: $(cat "$made/said")"
mkdir -p "$made/java/bin"
printf 'JAVA_VERSION="1.8.0_402"\n' >"$made/java/release"
printf '#!/bin/sh\nexit 1\n' >"$made/java/bin/java"
chmod +x "$made/java/bin/java"
status=0
JAVA_HOME="$made/java" "$made/archive/tools/check-jars" examples/old examples/new >"$made/said" 2>&1 || status=$?
[ "$status" -eq 70 ] && grep -q 'is too old: version 11 or later is needed' "$made/said" || fail "a Java that is too old: $(cat "$made/said")"
printf 'packages: where it does not run, it says so: ok\n'

(cd "$made/out" && sha256sum --quiet -c SHA256SUMS) || fail 'a file has another checksum'
for file in "$made"/out/*.tar.gz "$made"/out/*.deb "$made"/out/*.cdx.json "$made/out/Containerfile"; do
    grep -q "  ${file##*/}\$" "$made/out/SHA256SUMS" || fail "$file has no checksum"
done
grep -q '"bomFormat": "CycloneDX"' "$made"/out/*.cdx.json && grep -q '"name": "serde_json"' "$made"/out/*.cdx.json || fail 'the bill of materials lacks something'
python=
for each in /usr/bin/python3 python3; do
    [ -n "$python" ] || ! "$each" -c 'from jsonschema import Draft202012Validator' 2>/dev/null || python=$each
done
if [ -n "$python" ]; then
    # each component once, and what depends on what is among them
    "$python" - examples/cyclonedx.schema.json "$made"/out/*.cdx.json <<'END' || fail 'the bill of materials is not as CycloneDX has it'
import json, sys
from jsonschema import Draft202012Validator
bill = json.load(open(sys.argv[2]))
Draft202012Validator(json.load(open(sys.argv[1]))).validate(bill)
known = [each["bom-ref"] for each in [bill["metadata"]["component"]] + bill["components"]]
named = [ref for each in bill["dependencies"] for ref in [each["ref"]] + each["dependsOn"]]
sys.exit(len(known) != len(set(known)) or not set(named) <= set(known))
END
else
    lacks 'the form of the bill of materials, since no Python has jsonschema: install the package python3-jsonschema'
fi
[ "$(grep -c 'No licence is given yet' "$made/archive/copyright")" -eq 1 ] || fail 'the archive says nothing of a licence'
printf 'packages: checksums, and what the program is made of: ok\n'

if [ -d "$made/out/maven" ]; then
    for file in $(find "$made/out/maven" -name '*.jar' -o -name '*.pom'); do
        [ "$(sha256sum <"$file" | cut -d ' ' -f 1)" = "$(cat "$file.sha256")" ] || fail "$file has another checksum"
    done
    [ "$(find "$made/out/maven" -name '*.jar' | wc -l)" -eq 2 ] || fail 'the repository has other jars than the two plugins'
    printf 'packages: the repository: ok\n'
else
    lacks 'the repository, since the packages maven and gradle are not there'
fi
