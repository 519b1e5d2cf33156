#!/bin/sh
# Compiles the examples again: the sources below src/ to the class files in platform/, old/, new/ and client/, which stand in the
# repository, and those of the stored run of the program. It needs javac 17 on the path; other versions of javac may write other bytes.
set -eu

cd "$(dirname "$0")"
stored=../crates/jcompat/data

# build FOLDER OPTION.. compiles all sources below src/FOLDER to FOLDER
build() {
    from=src/$1
    to=$1
    shift
    rm -rf "$to"
    find "$from" -name '*.java' | LC_ALL=C sort | xargs javac -d "$to" "$@"
}

# the only way to compile a class of java.base: that module with our source in place of its own
build platform -source 17 -target 17 --patch-module java.base=src/platform
build old --release 17
build new --release 17
# a client of the old release
build client --release 17 -cp old

# the stored run: one class, the same in both releases
rm -rf "$stored"
mkdir -p "$stored"
cp -R platform "$stored/platform"
javac --release 17 -d "$stored/old" src/unchanged/p/A.java
cp -R "$stored/old" "$stored/new"
