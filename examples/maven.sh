#!/bin/sh
# Builds examples/maven with the plugin of Maven, in a copy: examples/maven.sh, from any folder.
#
# The project has two modules, of which the second needs the first. It is built as a first release, unchanged, with a break, with the break accepted, and so on; each
# build has to end as it should, and say why. No network is asked: Maven's own plugins are those of Debian's packages. Without Maven, or a program to put into the
# plugin, nothing is built, which is said, and the status is 0, or 1 where JCOMPAT_ALL=1 asks for all.
set -eu

cd "$(dirname "$0")/.."

skip() {
    printf 'maven: not run: %s\n' "$1"
    [ "${JCOMPAT_ALL:-}" != 1 ] || exit 1
    exit 0
}

command -v mvn >/dev/null || skip 'mvn is not on the path'
for part in plugins/maven-jar-plugin plugins/maven-compiler-plugin plugins/maven-resources-plugin plugins/maven-surefire-plugin; do
    [ -d "/usr/share/maven-repo/org/apache/maven/$part" ] || skip "$part is not in Debian's repository: install lib${part#plugins/}-java"
done
[ -f /usr/share/java/maven-plugin-api-3.x.jar ] && [ -d /usr/share/gradle/lib ] || skip 'the plugins are compiled over the packages maven and gradle'
program=crates/jcompat/out/jcompat
[ -x "$program" ] || skip "$program is not built"

made=$(mktemp -d)
trap 'rm -rf "$made"' EXIT
export XDG_CACHE_HOME="$made/cache"
# Debian has each 2 of plexus-utils as this version
JCOMPAT_PLEXUS=2.x tools/maven-repository "$program" 0.1 "$made/jcompat"
mkdir "$made/releases"
cp -R examples/maven "$made/project"
cd "$made/project"
cat >"$made/settings.xml" <<END2
<settings>
  <localRepository>$made/m2</localRepository>
  <mirrors><mirror><id>debian</id><mirrorOf>central</mirrorOf><url>file:///usr/share/maven-repo</url></mirror></mirrors>
</settings>
END2

# put ARTIFACT VERSION JAR POM: a release of the project
put() {
    mkdir -p "$made/releases/com/example/$1/$2"
    [ "$3" = none ] || cp "$3" "$made/releases/com/example/$1/$2/$1-$2.jar"
    cp "$4" "$made/releases/com/example/$1/$2/$1-$2.pom"
    printf '<metadata><groupId>com.example</groupId><artifactId>%s</artifactId><versioning><versions><version>%s</version></versions></versioning></metadata>\n' "$1" "$2" \
        >"$made/releases/com/example/$1/maven-metadata.xml"
}

# try NAME STATUS LINE WORD..: mvn with these words ends well, or not, and one of its lines has LINE in it
try() {
    name=$1 wanted=$2 line=$3
    shift 3
    status=0
    mvn -B -s "$made/settings.xml" -Daether.connector.smartChecksums=false -Dreleases="$made/releases" -Djcompat.repository="$made/jcompat" "$@" >"$made/log" 2>&1 || status=$?
    { [ "$status" -eq "$wanted" ] && grep -q -- "$line" "$made/log"; } || wrong "status $status, and not $wanted, or no line \"$line\""
    printf 'maven: %s: ok\n' "$name"
}

wrong() {
    printf 'maven: %s: %s\n' "$name" "$1"
    grep -v 'WARNING.*Could not validate\|Download' "$made/log" | tail -n 60
    exit 1
}

version() {
    find . -name pom.xml -exec sed -i "s|<version>$1</version>|<version>$2</version>|" {} +
}

none='jcompat: the repositories have no release of com.example:%s below 1.0.0, so nothing is compared'
try 'a first release' 0 "$(printf "$none" shapes)" -q verify
try 'one that has to have a release before it' 1 "$(printf "$none" frame)" verify -Djcompat.required
put parent 1.0.0 none pom.xml
for module in frame shapes; do put $module 1.0.0 "$module/target/$module-1.0.0.jar" $module/pom.xml; done
version 1.0.0 1.1.0-SNAPSHOT
# what was asked a moment ago, when there was no release, isn't kept
try 'nothing changed' 0 'jcompat: shapes 1.0.0 to 1.1.0-SNAPSHOT' verify
[ "$(grep -c 'INFO. compatible: 0 findings, 0 collisions, 0 notes' "$made/log")" -eq 2 ] || wrong 'the two modules are not compatible'
sed -i 's/Number width/Object width/' shapes/src/main/java/shapes/Canvas.java
try 'a break' 1 'ERROR. 1 H8 shapes/Canvas draw(Ljava/lang/Number;)V invokevirtual java/lang/Object NoSuchMethodError' verify
grep -q 'what is meant goes to' "$made/log" || wrong 'it is not said what to do'
grep -q 'due: 2.0.0, a major step from 1.0.0: 1 finding' "$made/log" && grep -q '1.1.0, the version of the new release, is too small' "$made/log" || wrong 'it is not said which number is due'
for file in report.txt report.json page.html printed.txt; do [ -s "shapes/target/jcompat/$file" ] || wrong "there is no $file"; done
grep -q 'Due by Semantic Versioning: <strong>2.0.0</strong>, a major step' shapes/target/jcompat/page.html || wrong 'the page does not say which number is due'
sed -n 's/^[0-9]* H8/H8/p' shapes/target/jcompat/report.txt >shapes/compat.accepted
try 'a break that is meant' 0 'BUILD SUCCESS' verify
rm shapes/compat.accepted
try 'one that is not asked for a number' 1 'ERROR. 1 H8' verify -Djcompat.due=false
! grep -q 'due: ' "$made/log" || wrong 'a number is due all the same'
try 'a check that is skipped' 0 'jcompat: skipped' verify -Djcompat.skip
export MAVEN_OPTS=-Dos.arch=aarch64
try 'a system that there is no program for' 0 'jcompat: there is no jcompat for linux-aarch64, so nothing is compared here' -q verify
try 'the same, where a comparison is required' 1 'there is no jcompat for linux-aarch64' verify -Djcompat.required
unset MAVEN_OPTS
try 'a last release that is not there' 1 'the release com.example:frame:jar:0.9.0 can.t be had' verify -Djcompat.baseline=0.9.0
try 'a step that is too small' 1 'clients break, or what else the gate version asks' verify -Djcompat.gate=version
try 'a Java that is too old' 1 'the new release needs Java 11, and --java is 8' verify -Djcompat.java=8 -pl frame
rm -rf "$made/m2/com/example"
try 'offline, where no list of releases is kept' 1 'the repositories couldn.t be asked for releases of com.example:frame' -o verify
version 1.1.0-SNAPSHOT 2.0.0-SNAPSHOT
try 'a step that is large enough' 0 'incompatible: 1 findings' verify -Djcompat.gate=version
try 'a row of releases' 0 'history: 1 steps, 1 incompatible' package jcompat:history -pl shapes -am
