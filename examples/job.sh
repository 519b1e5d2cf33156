#!/bin/sh
# Runs the job of compat.yml as it stands, in an empty folder: examples/job.sh, from any folder.
#
# Of its steps those are run that have a script, but for the build, in whose place jars of the examples stand. What is got is an archive of the
# program and its tools. A first pull request breaks clients, a second one accepts all of it, and a third accepts a part. The status is 1 where one
# goes otherwise. Without what the steps call nothing is run, which is said, and the status is 0, or 1 where JCOMPAT_ALL=1 asks for all.
set -eu

cd "$(dirname "$0")/.."

fail() {
    printf 'job: %s\n' "$1" >&2
    cat "$made/log" >&2
    exit 1
}

for tool in jar java javac curl git bash; do
    command -v "$tool" >/dev/null || { printf 'job: not run: %s is not on the path\n' "$tool" && [ "${JCOMPAT_ALL:-}" != 1 ] && exit 0 || exit 1; }
done

top=$PWD
made=$(mktemp -d)
trap 'rm -rf "$made"' EXIT
unset JAVA_HOME
export XDG_CACHE_HOME="$made/cache"

# the archive: the program is that of the clone, which is built, or of the archive that this one lies in
mkdir -p "$made/jcompat-0"
program=crates/jcompat/out/jcompat
[ -x "$program" ] || program=jcompat
cp "$program" "$made/jcompat-0/jcompat"
cp -R tools "$made/jcompat-0"
if [ -d java ]; then tools/build-java "$made/jcompat-0/jcompat.jar"; else cp jcompat.jar "$made/jcompat-0"; fi
tar -C "$made" -czf "$made/archive.tar.gz" jcompat-0

# the steps, each in a file, in order
awk -v to="$made" '
    /^      - / { name = ""; body = 0 }
    /^      - name: / { name = $0; sub(/^      - name: /, "", name) }
    body && /^          / { print substr($0, 11) >file }
    /^        run: / && name != "build" { file = to "/step" ++steps; printf "" >file; body = /\|$/; if (!body) { sub(/^        run: /, ""); print >file } }
' examples/compat.yml
[ -f "$made/step2" ] || fail 'compat.yml has fewer steps with a script than two'
# the variables, without those that the service gives
eval "$(sed -n 's/^  \([A-Z]\{1,\}\): "\{0,1\}\([^ "#]*\).*/export \1="\2"/p' examples/compat.yml)"
export JCOMPAT="file://$made/archive.tar.gz" GITHUB_BASE_REF=main

# a project, whose base branch has no accepted breaks
project() {
    rm -rf "$made/project"
    mkdir -p "$made/project/$(dirname "$LAST")" "$made/project/src/main/java/shapes"
    jar -cf "$made/project/$LAST" -C examples/old shapes
    jar -cf "$made/project/$BUILT" -C examples/new shapes
    touch "$made/project/src/main/java/shapes/Canvas.java"
    cd "$made/project"
    git init -q
    touch compat.accepted
    git add compat.accepted
    git -c user.name=job -c user.email=job@example.com commit -qm base
    git update-ref refs/remotes/origin/main HEAD
    cd "$top"
}

# job STATUS: runs the steps, as the service does; the last one ends with the status
job() {
    export GITHUB_PATH="$made/path" GITHUB_STEP_SUMMARY="$made/summary"
    : >"$GITHUB_PATH"
    : >"$GITHUB_STEP_SUMMARY"
    : >"$made/log"
    status=0
    for step in "$made"/step*; do
        (cd "$made/project" && PATH=$(tr '\n' ':' <"$GITHUB_PATH")$PATH bash -e "$step") >>"$made/log" 2>&1 || status=$?
    done
    [ "$status" -eq "$1" ] || fail "the status is $status, and not $1"
}

# has FILE LINE..: the file has lines that begin so
has() {
    file=$made/$1
    shift
    for line in "$@"; do grep -q "^$line" "$file" || fail "no line \"$line\""; done
}

project
job 1
has summary '### incompatible: 12 findings, 3 collisions, 1 notes' '| package | H1 |' '| `shapes` | 1 |' '- 2 warnings'
has log '::error file=src/main/java/shapes/Canvas.java,line=1,title=H8 shapes/Canvas::method void Canvas.draw(Shape) is gone' 'and 5 more lines'
[ "$(grep -c '^::' "$made/log")" -eq 10 ] || fail 'there are not ten annotations'
grep -q '<li id=n15 ' "$made/project/compat.html" || fail 'the page lacks a line'
cp "$made/project/report.json" "$made"
printf 'job: a pull request that breaks clients: ok\n'

project
tr '{' '\n' <"$made/report.json" | sed -n 's/.*"kind":"finding".*"text":"\([^"]*\)".*/\1  # 2.0/p' >"$made/project/compat.accepted"
job 0
has summary '### compatible but for 12 accepted (incompatible: 12 findings, 3 collisions, 1 notes)'
has summary '- accepted by this pull request: `H8 shapes/Canvas draw(Lshapes/Shape;)V invokevirtual java/lang/Object NoSuchMethodError  # 2.0`'
printf 'job: one that accepts all of it: ok\n'

project
printf 'H8 *\n' >"$made/project/compat.accepted"
job 1
! grep -q 'title=H8' "$made/log" || fail 'an accepted line has an annotation'
printf 'job: one that accepts a part: ok\n'
