#!/bin/sh
# Runs the tests of the Java side by JUnit 4: examples/java-tests.sh, from any folder. Then all class files of a JDK of version 22 to 25, that of JCOMPAT_NEWER_JDK
# or one in /usr/lib/jvm, are looked at: they have to have nothing that Java SE 17 doesn't have but another number, since they are read as class files for Java 21.
# What can't be run is said; the status is 1 then where JCOMPAT_ALL=1 asks for all.
set -eu

cd "$(dirname "$0")/.."

skip() {
    printf 'java-tests: not run: %s\n' "$1"
    [ "${JCOMPAT_ALL:-}" = 1 ] && exit 1
    exit 0
}

command -v javac >/dev/null && command -v jar >/dev/null || skip 'javac and jar are not on the path'
shared=/usr/share/java
[ -f "$shared/junit4.jar" ] && [ -f "$shared/hamcrest-core.jar" ] || skip "JUnit 4 is not in $shared: install the package junit4"

made=$(mktemp -d)
trap 'rm -rf "$made"' EXIT
tools/build-java "$made/jcompat.jar"
path=$made/jcompat.jar:$shared/junit4.jar:$shared/hamcrest-core.jar
mkdir "$made/tests"
javac --release 11 -Xlint:all,-path,-options -encoding UTF-8 -d "$made/tests" -cp "$path" java/test/jcompat/*.java
for test in java/test/jcompat/*Test.java; do
    name=${test##*/}
    set -- "$@" "jcompat.${name%.java}"
done
java -XX:TieredStopAtLevel=1 -cp "$made/tests:$path" org.junit.runner.JUnitCore "$@" >"$made/said" 2>&1 || { cat "$made/said" && exit 1; }
grep '^OK' "$made/said" | sed 's/^/java-tests: /'

newer=
for jdk in "${JCOMPAT_NEWER_JDK:-}" /usr/lib/jvm/*; do
    version=$(sed -n 's/^JAVA_VERSION="\([0-9]*\).*/\1/p' "$jdk/release" 2>/dev/null || :)
    [ "${version:-0}" -lt 22 ] || [ "$version" -gt 25 ] || [ ! -f "$jdk/lib/modules" ] || newer=$jdk
done
[ -n "$newer" ] || skip 'the forms of class files for Java 22 to 25, since no JDK of these versions is in /usr/lib/jvm'
java -cp "$made/tests:$path" jcompat.NewerForms "$newer" >"$made/said" || { cat "$made/said" && exit 1; }
sed 's/^/java-tests: /' "$made/said"
