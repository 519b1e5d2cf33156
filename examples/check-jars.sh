#!/bin/sh
# Tries tools/check-jars on jars made of the examples, and of a small library below: examples/check-jars.sh, from any folder.
#
# What it keeps of a report has to be what the program says over the folders that the jars are made of, with the same status; what it prints
# has to hold all lines of that, folded or not; what it refuses has to have the status 70 and its line, and its cache holds nothing but the
# platform afterwards. There is a line for each try. The status is 1 where one fails. What can't be tried, without a JDK of version 11 or later on the
# path, or without dpkg-deb, is said, and the status is 0, or 1 where JCOMPAT_ALL=1 asks for all.
set -eu

cd "$(dirname "$0")/.."

# lacks WHAT WHY: says what isn't tried
lacks() {
    printf 'check-jars: not run: %s\n' "$1"
    [ "${JCOMPAT_ALL:-}" != 1 ] || exit 1
}

for tool in java javac jar; do
    command -v "$tool" >/dev/null || { lacks "all, since $tool of a JDK is not on the path" && exit; }
done

top=$PWD
made=$(mktemp -d)
trap 'rm -rf "$made"' EXIT
unset JAVA_HOME
export XDG_CACHE_HOME="$made/cache"

# try NAME STATUS LINE WORD..: check-jars with these words, in the folder of the jars, ends with the status, and one of its lines begins with LINE
try() {
    name=$1
    wanted=$2
    line=$3
    shift 3
    status=0
    (cd "$made" && "$top/tools/check-jars" "$@") >"$made/out" 2>"$made/err" || status=$?
    if [ "$status" -eq "$wanted" ] && says "$line"; then
        printf 'check-jars: %s: ok\n' "$name"
    else
        wrong "status $status, and not $wanted, or no line \"$line\""
    fi
}

wrong() {
    printf 'check-jars: %s: %s\n' "$name" "$1"
    cat "$made/out" "$made/err"
    exit 1
}

# says LINE: one of the lines of the last try begins so
says() {
    cat "$made/out" "$made/err" | grep -q "^$1"
}

# too LINE..: lines of the last try begin so too
too() {
    for line in "$@"; do
        says "$line" || wrong "no line \"$line\""
    done
}

# same FILE COMMAND WORD..: the file is what the program prints of the command with the words, over the platform that check-jars keeps
same() {
    file=$made/$1
    command=$2
    shift 2
    for platform in "$XDG_CACHE_HOME"/jcompat/jdk-*/platform; do
        ./jcompat "$command" --platform "$platform" "$@" >"$made/folders" || [ $? -eq 1 ]
    done
    cmp "$made/folders" "$file"
}

# same_check FILE WORD..: the same of the command check and the folders of the examples, with all that check-jars asks for
same_check() {
    file=$1
    shift
    same "$file" check --old examples/old --new examples/new --warn --dropped --calls "$@"
}

# folded REPORT: each line that was printed stands in the report, and those of it that weren't are as many as the printed ones say
folded() {
    awk '
        function counts(string) { return string ~ /^([0-9]+|warning|dropped|call) / }
        FNR == NR { line[$0]; all += counts($0); next }
        /^[0-9]+ collisions on members/ { hidden += $1; next }
        /^[0-9]+ (warnings|dropped interfaces|lines on calls)/ { next }
        /^note unloadable (old|new): / || /^in / || /^ / { next }
        { text = $0; if (sub(/ \(and .*\)$/, "", text)) { n = split(substr($0, length(text)), word, " "); for (i = 1; i <= n; i++) hidden += word[i] + 0 } }
        !(text in line) { print "not in the report: " text; wrong = 1 }
        counts(text) { shown++ }
        END { if (shown + hidden != all) { print shown " shown and " hidden " folded of " all; wrong = 1 } exit wrong }' "$1" "$made/out" ||
        wrong 'the report has other lines'
}

# library SIDE: a jar of the library whose sources stand below the folder of the side
library() {
    find "$made/$1" -name '*.java' -exec javac -d "$made/$1-classes" {} +
    jar --create --file "$made/$1.jar" -C "$made/$1-classes" .
}

for side in old new client; do
    jar --create --file "$made/$side.jar" -C examples/$side .
done
jar --create --file "$made/versions.jar" -C examples/old . --release 9 -C examples/old shapes/Square.class 2>"$made/err"
jar --create --file "$made/texts.jar" -C examples/src .
printf 'no jar\n' >"$made/text.jar"
mkdir "$made/empty" "$made/jars"
cp "$made/old.jar" "$made/jars"
jar --create --file "$made/lib.aar" -C "$made/jars" old.jar
# the old release with a class that lacks its superclass
cp -R examples/old "$made/lacking-classes"
printf 'package p;\n\npublic class Lost extends Gone {\n}\n\nclass Gone {\n}\n' >"$made/Lost.java"
javac -d "$made/lacking-classes" "$made/Lost.java"
rm "$made/lacking-classes/p/Gone.class"
jar --create --file "$made/lacking.jar" -C "$made/lacking-classes" .

try 'two releases' 1 '1 H1 shapes/Square' old.jar new.jar --report report
same_check report
folded "$made/report"
too 'in shapes: 1 H1, 1 H2, 1 H3, 1 H4, 1 H5, 1 H6, 1 H7, 4 H8, 1 H9, 1 Constant, 1 Capture, 1 Final' 'incompatible: 12 findings, 3 collisions, 1 notes$'
too '8 H8 shapes/Canvas draw(Lshapes/Shape;)V invokevirtual java/lang/Object NoSuchMethodError (and 1 warning)$' '[0-9]* H[89] shapes/Painter paint()V .* NoSuchMethodError (and 1 warning)$' \
    '2 warnings, 1 dropped interfaces, 0 lines on calls; 2 warnings only say again what a finding says$' '    method void Canvas.draw(Shape) is gone; there is boolean draw(Shape)$'
says 'warning ' && wrong 'a warning that a finding says'
[ "$(head -n 1 "$made/out")" = 'incompatible: 12 findings, 3 collisions, 1 notes' ] || wrong 'the verdict does not stand first'
[ "$(grep -c '^    method' "$made/out")" -eq 2 ] || wrong 'more of H8 is explained than its first line'
try 'without words' 1 '1 H1 shapes/Square' old.jar new.jar --no-explain
says '    ' && wrong 'there are words'
try 'options of jcompat' 1 '{' old.jar new.jar -- --json
same_check out --json
too 'check-jars: 2 warnings, 1 dropped interfaces, 0 lines on calls; 2 warnings only say again'
try 'one release' 0 'compatible: 0 findings' old.jar old.jar
try 'the version' 0 'jcompat [0-9]*\.[0-9]' --version
try 'folders' 1 '15 Final shapes/Canvas' "$top/examples/old" "$top/examples/new" --report report
same_check report
try 'a library that lacks' 0 "check-jars: 1 of 3 classes of the old release weren't compared" client.jar client.jar
too 'note unloadable old gallery/Dot' '       1  shapes/Circle$' 'check-jars: 1 of these 1 are in: --with new.jar$'
try 'a library that lacks, where all has to be compared' 71 'note unloadable old gallery/Dot' client.jar client.jar --whole
try 'the same as JSON' 71 '{"collisions":\[\]' client.jar client.jar --whole -- --json
try 'findings beside what was not compared' 1 "check-jars: 1 of 11 classes of the old release weren't compared" lacking.jar new.jar --whole
try 'a library that is there' 0 'compatible: 0 findings, 0 collisions, 0 notes' client.jar client.jar --with old.jar --whole
try 'a release that is also a library' 1 'check-jars: 10 classes (as shapes/Brush) of the libraries left out: the old release has the same' old.jar new.jar --with old.jar
try 'a multi-release jar' 0 'check-jars: versions.jar is a multi-release jar' old.jar versions.jar
try 'no class file' 70 'check-jars: texts.jar has no class file' texts.jar new.jar
try 'an empty folder' 70 'check-jars: empty has no class file' empty new.jar
try 'no jar' 70 "check-jars: text.jar isn't a jar" old.jar text.jar
try 'an archive of Android' 70 'check-jars: lib.aar has no class file, so there is nothing to compare; there is a jar in it, as old.jar' lib.aar new.jar
try 'a folder of jars' 70 'check-jars: jars has no class file, so there is nothing to compare; there is a jar in it, as old.jar: compare jar by jar' jars new.jar
try 'sources' 70 'check-jars: texts.jar has no class file, so there is nothing to compare; it has sources' texts.jar new.jar
try 'one file twice' 0 'check-jars: old.jar and old.jar are the same file, so nothing can differ' old.jar old.jar
try 'no file' 70 'check-jars: there is no file gone.jar' gone.jar new.jar
try 'one jar' 70 'check-jars: two jars are needed' old.jar
try 'three jars' 70 'check-jars: there is a third release, new.jar' old.jar old.jar new.jar
try 'a witness that cannot be written' 5 'check-jars: writing failed' old.jar new.jar -- --witness old.jar

# classes that the JDK has too, files that are no class files, and classes elsewhere than at the places of their names
cp -R examples/old "$made/odd"
mkdir -p "$made/odd/java/util" "$made/odd/tmpl" "$made/newer/shapes"
for platform in "$XDG_CACHE_HOME"/jcompat/jdk-*/platform; do
    cp "$platform/java/util/Map.class" "$made/odd/java/util"
done
jar --create --file "$made/jdk.jar" -C "$made/odd" .
try 'a class that the JDK has too' 0 'check-jars: the class java/util/Map of the old release left out: the JDK has the same' jdk.jar old.jar
printf 'class $name {}\n' >"$made/odd/tmpl/A.class"
jar --create --file "$made/odd.jar" -C "$made/odd" .
try 'a file that is no class file' 3 "check-jars: tmpl/A.class of the old release isn't a class file, whatever its name: leave it out by --without 'tmpl/A.class'" odd.jar old.jar
try 'a file that is left out' 0 "check-jars: --without 'tmpl/\*' leaves out 1 class file" odd.jar old.jar --without 'tmpl/*'
try 'all is left out' 70 'check-jars: --without leaves nothing' old.jar new.jar --without '*'
jar --create --file "$made/below.jar" -C examples old
try 'classes elsewhere' 3 'check-jars: old/shapes/[A-Z][a-z]*.class of the new release stands elsewhere than its name' old.jar below.jar
# class files for Java 22, 25 with previews, and 26: the minor version, then the major one
cp -R examples/old/. "$made/newer"
# versioned NAME BYTES: a jar whose class Square has this version
versioned() {
    printf "$2" | dd of="$made/newer/shapes/Square.class" bs=1 seek=4 conv=notrunc 2>"$made/err"
    jar --create --file "$made/$1.jar" -C "$made/newer" .
}
versioned java22 '\000\000\000\102'
versioned java25 '\000\000\000\105'
versioned previews '\377\377\000\105'
versioned java26 '\000\000\000\106'
needs='needs Java 22, the old release ran on 17: clients on 17 to 21 get UnsupportedClassVersionError$'
try 'a class file for Java 22' 0 "$needs" old.jar java22.jar
too 'compatible: 0 findings, 0 collisions, 0 notes$' 'check-jars: java22.jar: 1 class file is for Java 22, read as for Java 21'
try 'one for Java 25' 0 'check-jars: java25.jar: 1 class file is for Java 25, read as for Java 21' old.jar java25.jar
try 'a Java that is too old' 73 'check-jars: the new release needs Java 22, and --java is 17$' old.jar java22.jar --java 17
try 'a Java that is new enough' 0 "$needs" old.jar java22.jar --java 22
try 'findings, and a Java that is too old' 1 'check-jars: the new release needs Java 17' old.jar new.jar --java 11
try 'the Java that is needed, in a row' 0 "step 1, old.jar to java22.jar: $needs" --row old.jar java22.jar
try 'previews' 3 'check-jars: shapes/Square.class of the new release uses previews of Java 25, which may change what class files mean' old.jar previews.jar
try 'a class file for Java 26' 3 'check-jars: shapes/Square.class of the new release is for Java 26, and jcompat reads class files up to Java 25' old.jar java26.jar
try 'no Java' 70 'check-jars: new, behind --java, is no version of Java' old.jar new.jar --java new

# rows of releases
try 'a row of releases' 1 'step 1, old.jar to old.jar: compatible: 0 findings, 0 collisions, 0 notes$' --row old.jar old.jar new.jar --report report
same report history examples/old examples/old examples/new
too 'step 2, old.jar to new.jar:$' '1 H1 shapes/Square - class - NoClassDefFoundError$' 'in shapes: 1 H1, 1 H2, 1 H3, 1 H4, 1 H5, 1 H6, 1 H7, 4 H8, 1 H9, 1 Constant, 1 Capture, 1 Final' \
    'incompatible: 12 findings, 3 collisions, 1 notes$' 'step 2, old.jar to new.jar: incompatible: 12 findings, 3 collisions, 1 notes$' 'history: 2 steps, 1 incompatible$'
says 'step 1, old.jar to old.jar:$' && wrong 'a step of which there is nothing to tell'
[ "$(grep -c '^[0-9]' "$made/out")" -eq 15 ] || wrong 'there are other lines than the fifteen of step 2'
try 'a row in words' 1 '    method void Canvas.draw(Shape) is gone; there is boolean draw(Shape)$' --row "$top/examples/old" new.jar --explain
try 'a row with a multi-release jar' 0 'check-jars: versions.jar is a multi-release jar' --row old.jar versions.jar old.jar
try 'a row that lacks a library' 71 'check-jars: 1 of 3 classes of release 2 weren.t compared' --row client.jar client.jar client.jar --whole
try 'findings, and a row that lacks a library' 1 'check-jars: 1 of 3 classes of release 2 weren.t compared' --row old.jar client.jar client.jar --whole
try 'a row whose last release lacks one' 1 "check-jars: 1 of 3 classes of release 2 don't load here" --row old.jar client.jar --whole
too '       1  shapes/Circle$'
try 'a row with a library' 0 'history: 1 steps, 0 incompatible$' --row client.jar client.jar --with old.jar --whole
try 'a file that is no class file, in a row' 3 "check-jars: tmpl/A.class of release 2 isn't a class file, whatever its name: leave it out by --without 'tmpl/A.class'" --row old.jar odd.jar
try 'a file that is left out of a row' 0 "check-jars: the class java/util/Map of release 2 left out" --row old.jar odd.jar old.jar --without 'tmpl/*'
try 'a row of one' 70 'check-jars: a row has from 2 to 20 releases, and not 1:' --row old.jar
try 'a row of 21' 70 'check-jars: a row has from 2 to 20 releases, and not 21:' --row $(yes old.jar | head -n 21 | tr '\n' ' ')
try 'an option that is not for a row' 70 'check-jars: --accepted, --from, --to, --strict and options behind -- are for two releases' --row old.jar new.jar -- --json

# versions: findings need a step of 3
cp "$made/old.jar" "$made/shapes-1.4.2.jar"
for next in 1.4.3 1.5.0 1.5.0.Final 2.0.0; do cp "$made/new.jar" "$made/shapes-$next.jar"; done
try 'a step that is too small' 1 'incompatible: 12 findings, 3 collisions, 1 notes$' shapes-1.4.2.jar shapes-1.5.0.jar -- --gate version
try 'a step that is large enough' 0 'incompatible: 12 findings, 3 collisions, 1 notes$' shapes-1.4.2.jar shapes-2.0.0.jar -- --gate version
try 'a version in place of that in a name' 0 'incompatible: 12 findings' shapes-1.4.2.jar shapes-1.5.0.jar --to 2.0.0 -- --gate version
try 'versions of names without one' 0 'incompatible: 12 findings' old.jar new.jar --from 0.3.0 --to 0.4.0 -- --gate version
try 'a version that is none' 1 'check-jars: no versions are handed on, since the name of shapes-1.5.0.Final.jar has none as 1.2.3$' shapes-1.4.2.jar shapes-1.5.0.Final.jar -- --gate version
try 'a version that is none, and no gate' 1 '1 H1 shapes/Square' shapes-1.4.2.jar shapes-1.5.0.Final.jar
! says 'check-jars: no versions' || wrong 'versions that nobody asked for'
try 'a version that is not later' 1 "check-jars: no versions are handed on, since 1.4.2 isn't later than 1.4.2" shapes-1.4.2.jar shapes-1.4.2.jar --gate version
try 'releases that are swapped' 1 "check-jars: 1.4.2 isn't later than 2.0.0: are the old and the new release swapped?" shapes-2.0.0.jar shapes-1.4.2.jar
try 'a version that is given, and is none' 2 'jcompat: usage: version 1.5$' shapes-1.4.2.jar shapes-1.5.0.jar --to 1.5
try 'a version that is given, and is not later' 2 'jcompat: usage: versions 1.4.2 1.4.0$' shapes-1.4.2.jar new.jar --to 1.4.0
try 'one version alone' 70 'check-jars: one version is given, and the name of new.jar has none as 1.2.3: give it by --to' shapes-1.4.2.jar new.jar --from 1.4.0
try 'versions twice' 70 'check-jars: versions stand before -- and behind it' old.jar new.jar --from 1.4.0 -- --to 1.5.0

# recipe TITLE: the first script of the recipe, as it stands
recipe() {
    awk -v title="## $1" '/^## / { here = $0 == title } /^```/ { fences += here; next } here && fences == 1' docs/RECIPES.md
}
recipe 'Which version number is due' >"$made/due"
name='which version number is due'
mkdir "$made/target"
cp "$made/new.jar" "$made/target/shapes.jar"
(cd "$made" && PATH=$top/tools:$PATH sh ./due) >"$made/out" 2>"$made/err"
if [ "$(cat "$made/out")" = 2.0.0 ]; then printf 'check-jars: %s: ok\n' "$name"; else wrong 'it is not 2.0.0'; fi

# what is due for additions: the gate asks for nothing there
mkdir -p "$made/pen/lib" "$made/more/lib"
printf 'package lib;\n\npublic class Pen {\n    public void draw() {\n    }\n}\n' >"$made/pen/lib/Pen.java"
printf 'package lib;\n\npublic class Pen {\n    public void draw() {\n    }\n\n    public void lift() {\n    }\n}\n' >"$made/more/lib/Pen.java"
library pen
library more
mv "$made/pen.jar" "$made/pen-1.0.0.jar"
try 'a public method that was added' 0 'due: 1.1.0, a minor step from 1.0.0: 1 addition, as lib/Pen lift()V$' pen-1.0.0.jar more.jar --due --added
too '    the gate version asks for 1.0.1: it is proved, and looks at findings and collisions alone; the rest is tested, not proved$' 'added in lib: 0 classes, 1 members, 0 deprecated$' \
    'added lib/Pen lift()V$' '    method void Pen.lift() was added$'
try 'too small a step for it' 0 '    1.0.1, the version of the new release, is too small$' pen-1.0.0.jar more.jar --due --to 1.0.1 --gate version
try 'nothing that was added' 0 'due: 1.0.1, a patch step from 1.0.0: nothing that asks for more$' pen-1.0.0.jar pen-1.0.0.jar --due
try 'the number for findings' 1 'due: 2.0.0, a major step from 1.4.2: 12 findings, as H1 shapes/Square' shapes-1.4.2.jar new.jar --due
try 'a number from no number' 1 'due: a major step: 12 findings' old.jar new.jar --due
try 'the number, as a document' 0 '.*"due":{"step":"minor","number":"1.1.0","gate_step":"patch","gate_number":"1.0.1",' pen-1.0.0.jar more.jar --due --json
try 'a number of no version' 70 'check-jars: 1.5, the version of the old release, is none as 1.2.3$' old.jar new.jar --due --from 1.5

# SARIF, with places in sources, and the same in the document
try 'SARIF' 1 '.*"source":{"file":"pen/lib/Pen.java","line":3}' more.jar pen-1.0.0.jar --json --sarif log.sarif --sources pen
grep -q '"ruleId":"H8","ruleIndex":0,"level":"error",.*"uri":"pen/lib/Pen.java"},"region":{"startLine":3}' "$made/log.sarif" || wrong 'the log has no result at its place'
try 'sources that are not there' 70 'check-jars: there is no file gone' old.jar new.jar --sources gone
try 'a log that cannot be written' 5 "check-jars: can't write to pen" old.jar new.jar --sarif pen

# warnings, dropped interfaces, lines on calls and modules: releases of the examples of rules
for rule in method_made_abstract abstract_method_added interface_left package_not_exported method_moved_to_hidden enum_constant_added; do
    for side in old new; do
        mkdir -p "$made/$rule-$side"
        cp -R "examples/rules/$rule/$side/." "$made/$rule-$side"
        library "$rule-$side"
    done
done
try 'a warning' 0 'warning shapes/Canvas clean()V lost$' method_made_abstract-old.jar method_made_abstract-new.jar --explain
too 'compatible: 0 findings, 0 collisions, 0 notes$' '1 warnings, 0 dropped interfaces, 0 lines on calls$' '    class Canvas gives classes no method void clean() to run any more$'
try 'a warning, as JSON' 72 '{"warnings":\[{"class":"shapes/Canvas","kind":"lost","member":"clean()V"}\]}$' method_made_abstract-old.jar method_made_abstract-new.jar --strict -- --json
too 'check-jars: 1 warnings'
try 'a method that an interface gains' 0 '    abstract method void clean() was added: classes that implement Painter without it fail when it is called$' abstract_method_added-old.jar abstract_method_added-new.jar
too '    class Y implements Painter { }, without a method clean of its own, and the library calls clean() on it$'
try 'a warning where none is meant' 72 "1 warnings" method_made_abstract-old.jar method_made_abstract-new.jar --strict
try 'warnings that nobody asks for' 0 'compatible: 0 findings, 0 collisions, 0 notes$' method_made_abstract-old.jar method_made_abstract-new.jar --strict --no-warn
says 'warning ' && wrong 'there is a warning'
echo 'warning shapes/Canvas clean()V lost   # nobody extends it' >"$made/accepted"
try 'a warning that is meant' 0 'check-jars: accepted: warning shapes/Canvas clean()V lost$' method_made_abstract-old.jar method_made_abstract-new.jar --strict --accepted accepted
try 'findings and warnings' 1 "2 warnings" old.jar new.jar --strict
try 'a dropped interface' 0 'dropped shapes/Canvas shapes/Painter$' interface_left-old.jar interface_left-new.jar --explain
too 'compatible: 0 findings, 0 collisions, 0 notes$' '0 warnings, 1 dropped interfaces, 0 lines on calls$' '    class Canvas no longer implements Painter$' '    Painter i = canvas;   i.paint();$'
try 'a dropped interface, as JSON' 72 '{"dropped":\[{"class":"shapes/Canvas","interface":"shapes/Painter"}\]}$' interface_left-old.jar interface_left-new.jar --strict -- --json
try 'a dropped interface where none is meant' 72 '0 warnings, 1 dropped interfaces, 0 lines on calls$' interface_left-old.jar interface_left-new.jar --strict
try 'dropped interfaces that nobody asks for' 0 '0 warnings, 0 lines on calls$' interface_left-old.jar interface_left-new.jar --strict --no-dropped
try 'a method reference' 0 'call shapes/Canvas title()Ljava/lang/String; reference$' method_moved_to_hidden-old.jar method_moved_to_hidden-new.jar --explain
too 'compatible: 0 findings, 0 collisions, 0 notes$' '0 warnings, 0 dropped interfaces, 1 lines on calls$' \
    "    method String Canvas.title() moved to Surface, which clients can't name: leave a method title in Canvas that calls it\$" '    takes(Canvas::title);$'
try 'a method reference, as JSON' 72 '{"calls":\[{"class":"shapes/Canvas","kind":"reference","member":"title()Ljava/lang/String;","target":null}\]}$' method_moved_to_hidden-old.jar method_moved_to_hidden-new.jar --strict -- --json
try 'a constant of an enum' 72 '    enum Shade has the constant GREY now: a switch over all that were there fails when it meets another' enum_constant_added-old.jar enum_constant_added-new.jar --strict
try 'lines on calls that nobody asks for' 0 '0 warnings, 0 dropped interfaces$' enum_constant_added-old.jar enum_constant_added-new.jar --strict --no-calls
try 'the gate of all that ends otherwise' 1 'call shapes/Shade - constants$' enum_constant_added-old.jar enum_constant_added-new.jar --gate calls
echo 'call shapes/Shade - constants   # new in a method of its own' >"$made/accepted"
try 'the gate, where the line is meant' 0 'check-jars: accepted: call shapes/Shade - constants$' enum_constant_added-old.jar enum_constant_added-new.jar --gate calls --accepted accepted
try 'the gate, of which a part is not asked for' 1 'compatible: 0 findings, 0 collisions, 0 notes$' enum_constant_added-old.jar enum_constant_added-new.jar --gate calls --no-calls

# modules: one that no longer exports a package, a release that became one, and a module's file that is for newer versions of Java alone
cp -R "$made/package_not_exported-old-classes" "$made/plain"
rm "$made/plain/module-info.class"
jar --create --file "$made/plain.jar" -C "$made/plain" .
mkdir -p "$made/versions/META-INF/versions/9" "$made/versions/META-INF/versions/99"
cp -R "$made/plain/." "$made/versions"
cp "$made/package_not_exported-new-classes/module-info.class" "$made/versions/META-INF/versions/9"
cp "$made/package_not_exported-old-classes/module-info.class" "$made/versions/META-INF/versions/99"
jar --create --file "$made/later.jar" -C "$made/versions" . 2>"$made/err"
unexported='1 H1 shapes/tools/Ruler - class - IllegalAccessError$'
try 'a package that is no longer exported' 1 "$unexported" package_not_exported-old.jar package_not_exported-new.jar --explain
too 'check-jars: --modular: the old release and the new release compared as a module' "    class Ruler is in a package that its module doesn't export\$"
try 'clients that have all on the class path' 0 'compatible: 0 findings, 0 collisions, 0 notes$' package_not_exported-old.jar package_not_exported-new.jar --no-modular
! says 'check-jars: --modular' || wrong 'the releases are compared as modules'
try 'both verdicts' 1 'on the class path:$' package_not_exported-old.jar package_not_exported-new.jar --report report
too 'compatible: 0 findings, 0 collisions, 0 notes$' 'as modules:$' 'incompatible: 1 findings, 0 collisions, 0 notes$'
grep -q '^compatible' "$made/report" && grep -q '^incompatible' "$made/report.modules" || wrong 'the two reports are not kept'
try 'both verdicts, as a document' 1 '{"format":"jcompat check-jars","version":1,"status":1,' package_not_exported-old.jar package_not_exported-new.jar --json
too '.*"clients":"on the class path","verdict":"compatible".*"clients":"as modules","verdict":"incompatible"'
try 'as modules alone' 1 "$unexported" package_not_exported-old.jar package_not_exported-new.jar --modular
! says 'on the class path:' || wrong 'the class path is compared too'
try 'a release that became a module' 1 "$unexported" plain.jar package_not_exported-new.jar
too 'check-jars: --modular: the new release compared as a module'
try 'a module of a multi-release jar' 1 "$unexported" plain later.jar
try 'no module' 0 'compatible: 0 findings, 0 collisions, 0 notes$' plain plain.jar
! says 'check-jars: --modular' || wrong 'the releases are compared as modules'
try 'a module in a row' 0 'history: 1 steps, 0 incompatible$' --row package_not_exported-old.jar package_not_exported-new.jar
printf 'no class\n' >"$made/plain/module-info.class"
try "a module's file that can't be read" 3 "check-jars: the module's file of the new release can't be read: --no-modular" plain.jar plain

# applications: a jar of Spring Boot, and a web archive, with a library inside
for inside in BOOT-INF WEB-INF; do
    mkdir -p "$made/$inside/$inside/lib" "$made/$inside/loader"
    cp -R examples/client "$made/$inside/$inside/classes"
    cp "$made/old.jar" "$made/$inside/$inside/lib"
done
cp examples/old/shapes/Square.class "$made/BOOT-INF/loader"
jar --create --file "$made/boot.jar" -C "$made/BOOT-INF" .
jar --create --file "$made/web.war" -C "$made/WEB-INF" .
try 'a jar of Spring Boot' 0 'check-jars: boot.jar: the classes below BOOT-INF/classes are compared, and the 1 outside' boot.jar boot.jar --whole
too 'compatible: 0 findings, 0 collisions, 0 notes'
try 'a web archive' 0 'compatible: 0 findings, 0 collisions, 0 notes' web.war WEB-INF --whole

# a library whose subclasses repeat what breaks
mkdir -p "$made/one/lib" "$made/two/lib"
for side in one two; do
    cat >"$made/$side/lib/Text.java" <<'END'
package lib;

public class Text {
    public static class Line extends Text {
    }

    public static class Last extends Line {
    }

    public static class Failure extends RuntimeException {
    }

    public static class Other {
        public String max(Number number) {
            return "";
        }
    }

    public String max(Number number) {
        return "";
    }

    public void put(java.util.Date date) {
    }

    public int size;
}
END
done
sed -i 's/max(Number/max(Object/; s/java.util.Date/java.sql.Date/; s/RuntimeException/Exception/; s/int size;/final int size = other().hashCode();\n    Runnable other() { return () -> { }; }\n    private void draw(Line line) { }/' "$made/two/lib/Text.java"
library one
library two
try 'lines of subclasses' 1 '2 H7 lib/Text size:I putfield java/lang/Object IllegalAccessError (and through 2 subclasses)$' one.jar two.jar --report report
folded "$made/report"
too '1 H4 lib/Text$Failure java/lang/RuntimeException assign - VerifyError (and 2 lines on the JDK.s classes)$' \
    '[0-9]* H8 lib/Text max(Ljava/lang/Number;)Ljava/lang/String; invokevirtual java/lang/Object NoSuchMethodError (and through 2 subclasses, and 3 warnings)$' \
    '[0-9]* H8 lib/Text$Other max(Ljava/lang/Number;)Ljava/lang/String; invokevirtual java/lang/Object NoSuchMethodError (and 1 warning)$' \
    '[0-9]* Capture lib/Text draw(Llib/Text$Line;)V invokevirtual - IllegalAccessError (and through 2 subclasses)$' \
    '3 collisions on members with a \$ in their name' '7 warnings'
says 'warning lib/Text' && wrong 'a warning that a finding says'
try 'lines in words' 1 '    method String Text.max(Number) is gone; there is String max(Object)$' one.jar two.jar --explain
folded "$made/report"
too '    text.max((Number) null);$' '    method void Text.put(java.util.Date) is gone; there is void put(java.sql.Date)$' '    field int Text.size is final now$' '    text.size = 0;$' '    class Text.Failure no longer has the superclass RuntimeException$'

# breaks that are meant
cat >"$made/accepted" <<'END'
# the next release counts anew
H7 lib/Text size:I putfield java/lang/Object IllegalAccessError   # is counted once
H4 lib/Text$Failure *
H8 lib/Gone *
H8 lib/Text put
END
try 'breaks that are meant' 1 'check-jars: line 4 of the accepted breaks accepts nothing: H8 lib/Gone \*$' one.jar two.jar --accepted accepted --report report
too 'check-jars: line 5 of the accepted breaks accepts nothing: H8 lib/Text put; nearest is [0-9]* H8 lib/Text put(Ljava/util/Date;)V .*, which it accepts with a \* at its end$' 'check-jars: accepted: 1 to 6$' 'incompatible: ' 'check-jars: 7 findings and 9 collisions are left'
says '[0-9]* H7' && wrong 'an accepted line was printed'
sed -n 's/^[0-9]* //p' "$made/report" >"$made/accepted"
try 'all breaks' 0 'check-jars: 0 findings and 0 collisions are left, and 0 warnings.*; what is promised' one.jar two.jar --accepted accepted
too 'compatible but for [0-9]* accepted (incompatible: ' 'check-jars: compatible but for [0-9]* accepted (incompatible: '
says 'incompatible' && wrong 'the verdict is the one of all lines'
(cd "$made" && "$top/tools/check-jars" one.jar two.jar --no-explain 2>/dev/null | grep '^[0-9]* H' >pasted)
try 'lines as they are printed' 0 'compatible but for [0-9]* accepted' one.jar two.jar --accepted pasted
try 'gates that pass with findings' 0 'the gates that are asked pass: few$' more.jar pen-1.0.0.jar --gate few
grep '^H' "$made/accepted" >"$made/findings"
try 'breaks, and a gate' 1 'check-jars: 0 findings and 9 collisions are left' one.jar two.jar --accepted findings -- --gate=links,collisions
try 'breaks, as a document' 0 '{"format":"jcompat check-jars","version":1,"status":0,' one.jar two.jar --accepted findings --json
too '.*"kind":"finding","rule":"H7",.*"accepted":true'
try 'breaks, as JSON' 0 '{"collisions":\[{' one.jar two.jar --accepted findings -- --json
try 'no file of breaks' 70 'check-jars: gone, which has' one.jar two.jar --accepted gone

# packages: a jar that has a version in its name, and needs another one of its package, and one without classes
package() {
    mkdir -p "$made/package$1/usr/share/java" "$made/package$1/DEBIAN"
    printf 'Package: libshapes-java\nVersion: %s\nArchitecture: all\nMaintainer: nobody <nobody@example.org>\nDescription: shapes\n' "$1" >"$made/package$1/DEBIAN/control"
    cp "$made/client.jar" "$made/package$1/usr/share/java/gallery-$1.jar"
    cp "$made/$2.jar" "$made/package$1/usr/share/java/shapes.jar"
    cp "$made/texts.jar" "$made/package$1/usr/share/java"
    dpkg-deb --root-owner-group --build "$made/package$1" "$made/shapes-$1.deb" >"$made/err"
}
if command -v dpkg-deb >/dev/null; then
    package 1.0 old
    package 1.1 new
    try 'two packages' 1 'status  findings collisions warnings dropped  calls  not compared  jar' shapes-1.0.deb shapes-1.1.deb --whole --report reports
    too '     0         0          0        0       0      0             0  gallery$' \
        '     1        12          3        2       1      0             0  shapes$' '     -  .*texts: has no class file$' '1 H1 shapes/Square'
    says 'gallery:' && wrong 'a jar of which there is nothing to tell'
    same_check reports/shapes
    rm "$made/package1.1/usr/share/java/shapes.jar"
    dpkg-deb --root-owner-group --build "$made/package1.1" "$made/shapes-1.1.deb" >"$made/err"
    try 'a jar that is gone' 70 '    70 .*shapes: only in the old package$' shapes-1.0.deb shapes-1.1.deb
else
    lacks 'two packages, since dpkg-deb is not on the path'
fi

for left in "$XDG_CACHE_HOME"/jcompat/*; do
    case $left in
    */jdk-*) ;;
    *) printf 'check-jars: left behind: %s\n' "$left" && exit 1 ;;
    esac
done
