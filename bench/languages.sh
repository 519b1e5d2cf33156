#!/usr/bin/env bash
# Makes clients by other compilers than javac, for bench/Scope.java:  bench/languages.sh INPUTS
#
# INPUTS is a folder that bench/inputs.sh has made. The compilers are those of Debian's packages kotlin, scala and groovy, as far as they are on the path. What is made:
#   languages/old, new   the releases of the examples; with has the libraries of the languages, and jars the clients, of sources in bench/languages
#   update/jars          the libraries and the compilers themselves, as clients of the JDK: `java bench/Scope.java INPUTS/root INPUTS/update`
set -eu
inputs=$(readlink -f -- "${1:?usage: bench/languages.sh INPUTS}")
here=$(dirname -- "$(dirname -- "$(readlink -f -- "$0")")")
made=$inputs/languages
JAVA_HOME=$(dirname -- "$(dirname -- "$(readlink -f -- "$(command -v javac)")")")
export JAVA_HOME
rm -rf -- "$made"
mkdir -p -- "$made/with" "$made/jars" "$inputs/update/jars"
cp -r -- "$here/examples/old" "$here/examples/new" "$made"

# client COMPILER SOURCE LIBRARY
client() {
    command -v "$1" >/dev/null || { echo "languages: no $1 on the path" >&2; return; }
    mkdir -- "$made/$1"
    "$1" -cp "$here/examples/old" -d "$made/$1" "$here/bench/languages/$2"
    jar --create --file "$made/jars/$1.jar" -C "$made/$1" .
    rm -r -- "$made/$1"
    unzip -qq -o "/usr/share/java/$3.jar" '*.class' -d "$made/with"
}

client kotlinc Main.kt kotlin-stdlib
client scalac Main.scala scala-library
client groovyc Main.groovy groovy
java=/usr/share/java
for jar in "$java"/kotlin-{stdlib,stdlib-jdk7,stdlib-jdk8,reflect,compiler}.jar "$java"/scala-{library,reflect,actors,compiler}.jar \
    "$java"/scala-{parser-combinators,xml}_2.11.jar /usr/share/groovy/lib/groovy-*.jar; do
    [ ! -e "$jar" ] || cp -- "$jar" "$inputs/update/jars"
done
