#!/bin/sh
# Builds examples/gradle with the plugin of Gradle, in a copy: examples/gradle.sh, from any folder.
#
# It is built as a first release, unchanged, with a break, with the break accepted, and so on; each build has to end as it should, and say why. No network is asked.
# Without Gradle, or a program to put into the plugin, nothing is built, which is said, and the status is 0, or 1 where JCOMPAT_ALL=1 asks for all.
set -eu

cd "$(dirname "$0")/.."

skip() {
    printf 'gradle: not run: %s\n' "$1"
    [ "${JCOMPAT_ALL:-}" != 1 ] || exit 1
    exit 0
}

command -v gradle >/dev/null || skip 'gradle is not on the path'
command -v javac >/dev/null || skip 'javac is not on the path'
[ -f /usr/share/java/maven-plugin-api-3.x.jar ] && [ -d /usr/share/gradle/lib ] || skip 'the plugins are compiled over the packages maven and gradle'
program=crates/jcompat/out/jcompat
[ -x "$program" ] || skip "$program is not built"
home=${JAVA_HOME:-$(dirname "$(dirname "$(readlink -f "$(command -v javac)")")")}
java=$("$home/bin/javac" -version 2>&1)
java=${java#javac }
[ "${java%%.*}" -le 17 ] || skip "Gradle of Debian doesn't run on Java ${java%%.*}: set JAVA_HOME to one up to 17"
export JAVA_HOME="$home"

made=$(mktemp -d)
trap 'rm -rf "$made"' EXIT
export XDG_CACHE_HOME="$made/cache"
tools/maven-repository "$program" 0.1 "$made/jcompat"

# a library that both releases need
mkdir -p "$made/classes" "$made/releases"
javac --release 11 -d "$made/classes" examples/maven/frame/src/main/java/frame/Panel.java
# put ARTIFACT VERSION JAR
put() {
    folder=$made/releases/com/example/$1
    mkdir -p "$folder/$2"
    cp "$3" "$folder/$2/$1-$2.jar"
    printf '<project><modelVersion>4.0.0</modelVersion><groupId>com.example</groupId><artifactId>%s</artifactId><version>%s</version></project>\n' "$1" "$2" >"$folder/$2/$1-$2.pom"
    printf '<metadata><groupId>com.example</groupId><artifactId>%s</artifactId><versioning><versions><version>%s</version></versions></versioning></metadata>\n' "$1" "$2" \
        >"$folder/maven-metadata.xml"
}
jar --create --file "$made/frame.jar" -C "$made/classes" .
put frame 1.0.0 "$made/frame.jar"
cp -R examples/gradle "$made/project"
cd "$made/project"

# try NAME STATUS LINE VERSION WORD..: gradle with these words ends well, or not, and one of its lines has LINE in it
try() {
    name=$1 wanted=$2 line=$3 version=$4
    shift 4
    status=0
    gradle --offline --no-daemon -g "$made/home" --console=plain -PjcompatRepository="$made/jcompat" -PjcompatVersion=0.1 -PtheVersion="$version" -Preleases="$made/releases" "$@" \
        >"$made/log" 2>&1 || status=$?
    [ "$status" -eq "$wanted" ] && grep -q -- "$line" "$made/log" || wrong "status $status, and not $wanted, or no line \"$line\""
    printf 'gradle: %s: ok\n' "$name"
}

wrong() {
    printf 'gradle: %s: %s\n' "$name" "$1"
    tail -n 60 "$made/log"
    exit 1
}

try 'a first release' 0 'jcompat: the repositories have no release below shapes 1.0.0, so nothing is compared' 1.0.0 -q check
put shapes 1.0.0 build/libs/shapes-1.0.0.jar
try 'nothing changed' 0 'jcompat: shapes-1.0.0.jar to shapes 1.1.0-SNAPSHOT: compatible: 0 findings' 1.1.0-SNAPSHOT check
grep -q 'jcompat: shapes-1.0.0.jar to shapes 1.1.0-SNAPSHOT: due: 1.0.1, a patch step from 1.0.0' "$made/log" || wrong 'it is not said which number is due'
try 'nothing changed, again' 0 'jcompatCheck UP-TO-DATE' 1.1.0-SNAPSHOT check
sed -i 's/Number width/Object width/' src/main/java/shapes/Canvas.java
try 'a break' 1 '1 H8 shapes/Canvas draw(Ljava/lang/Number;)V invokevirtual java/lang/Object NoSuchMethodError' 1.1.0-SNAPSHOT check
for file in report.txt report.json page.html printed.txt; do [ -s "build/jcompat/$file" ] || wrong "there is no $file"; done
try 'a check that is skipped' 0 'jcompatCheck SKIPPED' 1.1.0-SNAPSHOT check -Pjcompat.skip
sed -n 's/^[0-9]* H8/H8/p' build/jcompat/report.txt >compat.accepted
try 'a break that is meant' 0 'BUILD SUCCESSFUL' 1.1.0-SNAPSHOT check
printf "\njcompat {\n    baseline = '(,1.0.0)'\n    required = true\n}\n" >>build.gradle
try 'one that has to have a release before it' 1 'the repositories have no release below shapes' 1.1.0-SNAPSHOT check
