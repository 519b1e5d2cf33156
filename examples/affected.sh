#!/bin/sh
# Tries tools/affected on jars, packages and trees made of the examples and of a small library below: examples/affected.sh, from any folder.
#
# What it says is lost has to be what the program says of the same folders, and what it refuses has to have the status 70 and its line. There is a line for each try; the
# status is 1 where one fails. What can't be tried, without a JDK of version 11 or later on the path, without dpkg-deb or without a Python that has jsonschema, is said, and the
# status is 0, or 1 where JCOMPAT_ALL=1 asks for all.
set -eu

cd "$(dirname "$0")/.."

# lacks WHAT WHY: says what isn't tried
lacks() {
    printf 'affected: not run: %s\n' "$1"
    [ "${JCOMPAT_ALL:-}" != 1 ] || exit 1
}

for tool in java javac jar; do
    command -v "$tool" >/dev/null || { lacks "all, since $tool of a JDK is not on the path" && exit; }
done

top=$PWD
made=$(mktemp -d)
trap 'rm -rf "$made"' EXIT
unset JAVA_HOME
export XDG_CACHE_HOME="$made/cache"

# try NAME STATUS LINE WORD..: affected with these words, in the folder of the jars, ends with the status, and one of its lines begins with LINE
try() {
    name=$1 wanted=$2 line=$3
    shift 3
    status=0
    (cd "$made" && "$top/tools/affected" "$@") >"$made/out" 2>"$made/err" || status=$?
    if [ "$status" -eq "$wanted" ] && says "$line"; then
        printf 'affected: %s: ok\n' "$name"
    else
        wrong "status $status, and not $wanted, or no line \"$line\""
    fi
}

wrong() {
    printf 'affected: %s: %s\n' "$name" "$1"
    cat "$made/out" "$made/err"
    exit 1
}

says() {
    cat "$made/out" "$made/err" | grep -q -- "^$1"
}

# too LINE..: lines of the last try begin so too
too() {
    for line in "$@"; do says "$line" || wrong "no line \"$line\""; done
}

for side in old new client; do jar -cf "$made/$side.jar" -C "examples/$side" .; done
try 'a client that breaks' 1 'affected: 1 clients, 1 broken, 0 not asked; 0 of 1 name nothing of the old release' old.jar new.jar client.jar --needed
# each line of the program, on the client's own classes, is one of the losses
./jcompat clients --platform examples/platform --old examples/old --new examples/new examples/client >"$made/lines" || [ $? -eq 1 ]
try 'the same for machines' 1 '{"format":"jcompat affected","version":1,"status":1,' old.jar new.jar client.jar --needed --json --page page.html
cp "$made/out" "$made/client.json"
sed -n 's/^client 1 item \([^ ]*\) \(.*\)$/\2 @ \1/p; s/^client 1 class \([^ ]*\) \(.*\)$/class doesn.t load: \2 @ \1/p' "$made/lines" | sort >"$made/lost"
[ -s "$made/lost" ] || wrong 'the program says that nothing is lost'
grep -o '{"text":"[^"]*","act":[^]]*\]' "$made/client.json" | sed "s/{\"text\":\"\([^\"]*\)\".*\"in\":\[\(.*\)\]/\1@\2/; s/doesn't/doesn.t/" |
    awk -F@ '{ count = split($2, all, ","); for (i = 1; i <= count; i++) { gsub(/"/, "", all[i]); print $1 " @ " all[i] } }' | sort >"$made/told"
cmp "$made/lost" "$made/told" || wrong 'other things are told than the program says'
printf 'affected: what is lost is what the program says: ok\n'
grep -q '<h1 class=bad>1 client breaks of 1</h1>' "$made/page.html" && ! grep -qE '(src|href)="?[a-z]*:?//' "$made/page.html" || wrong 'the page says something else, or asks a network'
try 'over a whole JDK' 1 '{"format":"jcompat affected"' old.jar new.jar client.jar --json
cmp "$made/client.json" "$made/out" || wrong 'over a whole JDK it is another document'
cp "$made/old.jar" "$made/same.jar"
mkdir -p "$made/bad/p"
printf 'no class' >"$made/bad/p/A.class"
try 'a client that keeps all' 0 '    keeps ' old.jar same.jar client.jar --needed

# a library, another one with a class below one of its, and clients of the two
mkdir -p "$made/src/p" "$made/src/q" "$made/src/s" "$made/jars"
printf 'package p; public class A { public void draw() { } }\n' >"$made/src/p/A.java"
printf 'package q; public class B extends p.A { }\n' >"$made/src/q/B.java"
printf 'package s; public class Main { p.A made; void run(q.B b) { b.draw(); } }\n' >"$made/src/s/Main.java"
javac --release 11 -d "$made/all" "$made"/src/*/*.java
for each in p q s; do
    mkdir -p "$made/$each" && mv "$made/all/$each" "$made/$each"
    jar -cf "$made/$each-1.0.jar" -C "$made/$each" .
done
printf 'package p; public class A { }\n' >"$made/src/p/A.java"
javac --release 11 -d "$made/p2" "$made/src/p/A.java"
jar -cf "$made/p-1.1.jar" -C "$made/p2" .
mv "$made/q-1.0.jar" "$made/s-1.0.jar" "$made/jars"
cp "$made/old.jar" "$made/jars/shapes.jar"
try 'a folder of jars' 1 'affected: 2 clients, 1 broken, 0 not asked; 1 of 3 name nothing of the old release' p-1.0.jar p-1.1.jar jars --needed
too '    invokevirtual q/B draw()V q/B NoSuchMethodError, in s/Main' '   breaks        1      0      1         0        0  jars/s-1.0.jar' '    keeps        1      2      0         0        0  jars/q-1.0.jar'
try 'a client whose library is missing' 0 '       1  q/B' p-1.0.jar p-1.1.jar s --needed
try 'the same, where all is asked for' 71 'affected: 1 clients, 0 broken, 0 not asked' p-1.0.jar p-1.1.jar s --needed --whole
mkdir -p "$made/repository/org/example/q/1.0"
cp "$made/jars/q-1.0.jar" "$made/repository/org/example/q/1.0"
printf '[INFO] org.example:s:jar:1.0\n[INFO] \\- org.example:q:jar:1.0:compile\n[INFO]    \\- org.example:p:jar:1.0:compile\n' >"$made/tree"
try 'a tree of Maven' 1 '   breaks        1 ' p-1.0.jar p-1.1.jar jars/s-1.0.jar --tree tree --repository repository --needed
printf '[INFO] org.example:t:jar:1.0\n' >>"$made/tree"
try 'a tree of no client' 1 'affected: no client has the name of org.example:t:1.0' p-1.0.jar p-1.1.jar jars/s-1.0.jar --tree tree --repository repository --needed

if command -v dpkg-deb >/dev/null; then
    # package NAME DEPENDS JAR
    package() {
        mkdir -p "$made/$1/DEBIAN" "$made/$1/usr/share/java" "$made/debs"
        printf 'Package: %s\nVersion: 1.0-1\nArchitecture: all\nMaintainer: none <none@example.com>\nDepends: %s\nDescription: %s\n' "$1" "$2" "$1" >"$made/$1/DEBIAN/control"
        cp "$3" "$made/$1/usr/share/java"
        dpkg-deb -b "$made/$1" "$made/debs" >/dev/null
    }
    package libp-java default-jre-headless "$made/p-1.0.jar"
    package libq-java 'libp-java (>= 1.0)' "$made/jars/q-1.0.jar"
    package s 'default-jre-headless | java8-runtime-headless, libq-java, libnone-java' "$made/jars/s-1.0.jar"
    package unwilling libp-java "$made/jars/s-1.0.jar"
    try 'packages' 1 'affected: 3 clients, 1 broken, 0 not asked; 0 of 3 name nothing' debs/libp-java_1.0-1_all.deb p-1.1.jar debs --needed
    too '   breaks        1      0      1         0        0  s: s-1.0.jar' '    keeps        1      0      0         0        1  unwilling: s-1.0.jar' 'packages that break: s$' \
        'affected: 1 classes are nowhere'
    ! says 'affected: not at hand' || wrong 'what no class misses is said to be missing'
else
    lacks 'packages, since dpkg-deb is not on the path'
fi

try 'no client' 70 'affected: the old release, the new one and clients are needed: see affected --help' old.jar new.jar
try 'a file that is not there' 70 'affected: there is no file gone.jar' old.jar new.jar gone.jar
mkdir "$made/empty"
try 'nothing at hand' 70 'affected: what was named as clients has no class file' old.jar new.jar empty old.jar
try 'an option that is not there' 70 'affected: there is no option --row' old.jar new.jar client.jar --row
try 'a release that is none' 3 'jcompat: new: ' old.jar bad client.jar --needed
try 'help' 0 'usage: affected OLD NEW CLIENT..' --help
[ "$("$top/tools/affected" --version)" = "$("$top/tools/check-jars" --version)" ] || wrong 'it has another version than check-jars'

python=
for each in /usr/bin/python3 python3; do
    [ -n "$python" ] || ! "$each" -c 'from jsonschema import Draft202012Validator' 2>/dev/null || python=$each
done
[ -n "$python" ] || { lacks 'the schema, since no Python has jsonschema: install the package python3-jsonschema' && exit; }
"$python" -c 'import json, sys; from jsonschema import Draft202012Validator as By; By(json.load(open(sys.argv[1]))).validate(json.load(open(sys.argv[2])))' \
    docs/affected.schema.json "$made/client.json" || wrong 'the document is not as its schema has it'
printf 'affected: the document is as its schema has it: ok\n'
