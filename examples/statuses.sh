#!/usr/bin/env bash
# Tries what no clause can say of the program, since only a process shows it: examples/statuses.sh, from any folder.
#
# Each exit status from 0 to 7 is brought about, and with it come just the bytes that are due on standard output and standard error. The words are
# those that the process is given: empty ones count, and those that aren't UTF-8 are refused. Real folders are listed and read, with links, FIFOs,
# devices and what is at a limit, and take witness files; a module-info.class is read where that is asked for, and only there. No JDK is needed: the class files are written below. There is a line for each try, and a last one with their
# number. The status is 1 where one fails. Where the program isn't built, nothing is tried, which is said, and the status is 0, or 1 where
# JCOMPAT_ALL=1 asks for all.
set -eu

cd "$(dirname "$0")/.."

program=$PWD/jcompat
[ ! -d crates ] || program=$PWD/crates/jcompat/out/jcompat
if [ ! -x "$program" ]; then
    printf "statuses: not run: the program isn't built\n"
    [ "${JCOMPAT_ALL:-}" != 1 ] || exit 1
    exit 0
fi

made=$(mktemp -d)
trap 'rm -rf "$made"' EXIT
cd "$made"

# A platform with its root alone; a release with the class p/A; one where nothing is left of it; one whose class file is cut off; one with a class file
# of a byte too many; one that is a module and exports nothing; one whose module-info.class is empty; and a client, q/A, whose superclass is p/A. The class files are of Java 8, the
# module's of Java 9.
object='\0001\0000\0020java/lang/Object'
init='\0001\0000\0006<init>\0001\0000\0003()V'
mkdir -p platform/java/lang old/p gone cut/p long/p named/p empty/p client/q
printf %b '\0312\0376\0272\0276\0000\0000\0000\0064\0000\0005\0007\0000\0002'"$object$init"'\0000\0041\0000\0001\0000\0000\0000\0000\0000\0000\0000\0001\0000\0001\0000\0003\0000\0004\0000\0000\0000\0000' >platform/java/lang/Object.class
printf %b '\0312\0376\0272\0276\0000\0000\0000\0064\0000\0007\0007\0000\0002\0001\0000\0003p/A\0007\0000\0004'"$object$init"'\0000\0041\0000\0001\0000\0003\0000\0000\0000\0000\0000\0001\0000\0001\0000\0005\0000\0006\0000\0000\0000\0000' >old/p/A.class
printf %b '\0312\0376\0272\0276\0000\0000\0000\0064\0000\0007\0007\0000\0002\0001\0000\0003q/A\0007\0000\0004\0001\0000\0003p/A'"$init"'\0000\0041\0000\0001\0000\0003\0000\0000\0000\0000\0000\0001\0000\0001\0000\0005\0000\0006\0000\0000\0000\0000' >client/q/A.class
head -c 10 old/p/A.class >cut/p/A.class
truncate -s 4194305 long/p/A.class
cp old/p/A.class named/p
printf %b '\0312\0376\0272\0276\0000\0000\0000\0065\0000\0010\0007\0000\0002\0001\0000\0013module-info\0023\0000\0004\0001\0000\0001m\0023\0000\0006\0001\0000\0011java.base\0001\0000\0006Module\0200\0000\0000\0001\0000\0000\0000\0000\0000\0000\0000\0000\0000\0001\0000\0007\0000\0000\0000\0026\0000\0003\0000\0000\0000\0000\0000\0001\0000\0005\0200\0000\0000\0000\0000\0000\0000\0000\0000\0000\0000\0000' >named/module-info.class
cp old/p/A.class empty/p
: >empty/module-info.class
# a folder whose name isn't ASCII
cp -R old 'é'

tries=0

# see NAME STATUS OUTPUT LINE WORD..: the program with these words ends with the status, having put just this output and this line on standard error
see() {
    name=$1 wanted=$2
    printf %s "$3" >due
    printf %s "$4" >due_line
    shift 4
    status=0
    "$program" "$@" >out 2>line || status=$?
    judge
}

# judge: fails unless the status and the streams of the last try are those that were due
judge() {
    if [ "$status" -ne "$wanted" ] || ! cmp -s due out || ! cmp -s due_line line; then
        printf 'statuses: %s: FAILED, with the status %s in place of %s\n' "$name" "$status" "$wanted"
        diff due out || true
        diff due_line line || true
        exit 1
    fi
    printf 'statuses: %s: ok\n' "$name"
    tries=$((tries + 1))
}

# see_failure NAME WHY: the try of this name has failed
see_failure() {
    printf 'statuses: %s: FAILED, since %s\n' "$1" "$2"
    exit 1
}

compatible=$'compatible: 0 findings, 0 collisions, 0 notes\n'
class_gone=$'1 H1 p/A - class - NoClassDefFoundError\nincompatible: 1 findings, 0 collisions, 0 notes\n'
class_shut=$'1 H1 p/A - class - IllegalAccessError\nincompatible: 1 findings, 0 collisions, 0 notes\n'
words=$'jcompat: usage: words\n'

# check NEW WORD..: the words of a check of the release old with this one
check() {
    new=$1
    shift
    asked=(check --platform platform --old old --new "$new" "$@")
}

check old
see 'a release with itself' 0 "$compatible" '' "${asked[@]}"
check 'é'
see 'a folder whose name is not ASCII' 0 "$compatible" '' "${asked[@]}"
check gone
see 'a class that is gone' 1 "$class_gone" '' "${asked[@]}"

see 'no words' 2 '' $'jcompat: usage: no command\n'
see 'an empty word as the command' 2 '' $'jcompat: usage: unknown command \n' ''
check old ''
see 'an empty word behind the last one' 2 '' "$words" "${asked[@]}"
check old --gate ''
see 'an empty word as a value' 2 '' $'jcompat: usage: unknown gate \n' "${asked[@]}"
long=$(printf 'w%.0s' {1..100000})
see 'a command of 100,000 bytes' 2 '' $'jcompat: usage: unknown command '"$long"$'\n' "$long"
see 'a command that is not UTF-8' 2 '' "$words" $'\xff'
check $'old\xff'
see 'a value that is not UTF-8' 2 '' "$words" "${asked[@]}"

check cut
see 'a class file that is cut off' 3 '' $'jcompat: new: p/A.class: Short at 10\n' "${asked[@]}"
check nowhere
see 'a folder that is not there' 4 '' $'jcompat: new: read fault\n' "${asked[@]}"

check gone
name='an output that is full' wanted=5 status=0
: >due
: >due_line
: >out
"$program" "${asked[@]}" >/dev/full 2>line || status=$?
judge
name='a full stream for a line that is due' status=0
: >line
"$program" >out 2>/dev/full || status=$?
judge
check gone --witness old/p/A.class/below
see 'a witness that cannot be written' 5 '' '' "${asked[@]}"
check gone --witness written
see 'a witness' 1 "$class_gone" '' "${asked[@]}"
[ -s written/000001/w0/U.class ] || see_failure 'a witness' 'nothing was written'

name='no memory' wanted=6 status=0
: >due
: >due_line
(
    ulimit -v 10000
    "$program" make 4096 >out 2>line
) || status=$?
judge

check long
see 'a class file with a byte too many' 7 '' $'jcompat: new: p/A.class: limit bytes\n' "${asked[@]}"

check named
see 'a module that is not asked for' 0 "$compatible" '' "${asked[@]}"
check named --modular
see 'a module that exports nothing' 1 "$class_shut" '' "${asked[@]}"
check empty
see 'an empty module-info.class that is not asked for' 0 "$compatible" '' "${asked[@]}"
check empty --modular
see 'an empty module-info.class' 3 '' $'jcompat: new: module-info.class: Short at 0\n' "${asked[@]}"

# Lines on calls: the sealed class p/A permits p/B, and then p/C besides, which a client's switch misses. The class files are of Java 17.
sealed='\0007\0000\0002\0001\0000\0003p/A\0007\0000\0004'"$object$init"'\0001\0000\0023PermittedSubclasses\0007\0000\0011\0001\0000\0003p/B'
body='\0000\0041\0000\0001\0000\0003\0000\0000\0000\0000\0000\0001\0000\0001\0000\0005\0000\0006\0000\0000\0000\0001\0000\0007\0000\0000\0000'
mkdir -p one/p two/p
printf %b '\0312\0376\0272\0276\0000\0000\0000\0075\0000\0012'"$sealed$body"'\0004\0000\0001\0000\0010' >one/p/A.class
printf %b '\0312\0376\0272\0276\0000\0000\0000\0075\0000\0014'"$sealed"'\0007\0000\0013\0001\0000\0003p/C'"$body"'\0006\0000\0002\0000\0010\0000\0012' >two/p/A.class
permits=(check --platform platform --old one --new two)
missed=$'compatible: 0 findings, 0 collisions, 0 notes\ncall p/A - constants\n'
see 'a call that nobody asks for' 0 "$compatible" '' "${permits[@]}"
see 'a call' 0 "$missed" '' "${permits[@]}" --calls
see 'a call, as JSON' 0 $'{"collisions":[],"findings":[],"notes":[],"verdict":"compatible"}\n{"calls":[{"class":"p/A","kind":"constants","member":null,"target":null}]}\n' '' "${permits[@]}" --calls --json
see 'a call, last of the parts' 0 "$missed" '' "${permits[@]}" --calls --dropped --warn --signatures
see 'the gate of calls, with all of its parts' 1 "$missed" '' "${permits[@]}" --warn --dropped --calls --gate calls
check old --gate calls
see 'the gate of calls, with none of its parts' 1 "$compatible" '' "${asked[@]}"
see 'the gate of calls, with one of its parts' 1 "$compatible" '' "${asked[@]}" --calls
see 'the gate of calls, with two of its parts' 1 "$compatible" '' "${asked[@]}" --warn --calls
see 'the gate of calls, where there is none' 0 "$compatible" '' "${asked[@]}" --warn --dropped --calls
see 'no call, as JSON' 0 $'{"collisions":[],"findings":[],"notes":[],"verdict":"compatible"}\n{"warnings":[]}\n{"dropped":[]}\n{"calls":[]}\n' '' "${asked[@]}" --warn --dropped --calls --json
see 'calls asked for twice' 2 '' "$words" "${asked[@]}" --calls --calls

# clients WORD..: the words of a question about clients of the releases old and gone
clients() {
    asked=(clients --platform platform --old old --new gone "$@")
}

clients client old
see 'a client that breaks, and one that is refused' 1 $'client 1 class q/A NoClassDefFoundError\nclient 1 breaks: 1 classes, 1 outcomes, 0 errors before, 1 lost\nclient 2 jcompat: client: name p/A declared\nclients: 2 clients, 1 broken, 1 refused\n' '' "${asked[@]}"
clients --json client old cut
see 'the same as JSON, and one that is not read' 1 '{"clients":[{"classes":1,"errors":0,"lost":[{"class":"q/A","error":"NoClassDefFoundError","member":null,"name":null,"operation":null,"receiver":null}],"number":1,"outcomes":1,"refusal":null},{"classes":null,"errors":null,"lost":null,"number":2,"outcomes":null,"refusal":{"class":"p/A","path":null,"reason":"declared"}},{"classes":null,"errors":null,"lost":null,"number":3,"outcomes":null,"refusal":{"class":null,"path":"p/A.class","reason":"Short at 10"}}],"total":{"broken":1,"clients":3,"refused":2}}'$'\n' '' "${asked[@]}"
# its package is no longer exported, which counts in a run with modules alone
see 'a client of a release that becomes a module' 0 $'client 1 keeps: 1 classes, 1 outcomes, 0 errors before, 0 lost\nclients: 1 clients, 0 broken, 0 refused\n' '' clients --platform platform --old old --new named client
see 'the same with modules' 1 $'client 1 class q/A IllegalAccessError\nclient 1 breaks: 1 classes, 1 outcomes, 0 errors before, 1 lost\nclients: 1 clients, 1 broken, 0 refused\n' '' clients --platform platform --old old --new named --modular client
clients gone
see 'a client without classes' 0 $'client 1 keeps: 0 classes, 0 outcomes, 0 errors before, 0 lost\nclients: 1 clients, 0 broken, 0 refused\n' '' "${asked[@]}"
clients client nowhere
see 'a second client that is not there' 4 '' $'jcompat: client 2: read fault\n' "${asked[@]}"
clients
see 'no client' 2 '' $'jcompat: usage: clients 0\n' "${asked[@]}"
mapfile -t many < <(for _ in {1..1001}; do echo client; done)
clients "${many[@]}"
see 'a thousand and one clients' 2 '' $'jcompat: usage: clients 1001\n' "${asked[@]}"

# The page of help: which page it is, is proved.
name='the page of help' wanted=0 status=0
: >due_line
"$program" help >out 2>line || status=$?
grep -qx 'jcompat check --platform FOLDER --old FOLDER --new FOLDER' out && tail -n 1 out | grep -qx '  7  a limit is passed' || see_failure "$name" "it isn't whole"
cp out due
judge
see 'a word behind help' 2 '' "$words" help check
see 'dashes behind help' 2 '' "$words" help --
see 'help as an option' 2 '' $'jcompat: usage: unknown command --help\n' --help
name='help, and an output that is full' wanted=5 status=0
: >due
: >due_line
: >out
"$program" help >/dev/full 2>line || status=$?
judge

# What stands in a folder. The class p/A is a link to its file; a link to a folder is passed over, else r/A.class would be at another place than its name's; a
# file that is no class file is passed over too; and the root may be a link itself.
mkdir -p linked/p
ln -s ../../old/p/A.class linked/p
ln -s p linked/r
echo notes >linked/notes.txt
ln -s linked by_link
check linked
see 'links to a file and to a folder' 0 "$compatible" '' "${asked[@]}"
check by_link
see 'a link as the root' 0 "$compatible" '' "${asked[@]}"
check old/p/A.class
see 'a file as the root' 4 '' $'jcompat: new: read fault\n' "${asked[@]}"
cp -R old deep
mkdir -p deep/p/q/r
cp old/p/A.class deep/p/q/r
check deep
see 'a class file deep below the root, at another place than its name' 3 '' $'jcompat: new: p/q/r/A.class: misplaced p/A\n' "${asked[@]}"
mkdir -p several/p/A
: >several/p/A/B.class
: >several/p/A.class
: >'several/p/A$B.class'
check several
see 'several empty files, of which the first in byte order of paths is named' 3 '' $'jcompat: new: p/A$B.class: Short at 0\n' "${asked[@]}"

# A class file's path that leads to no regular file. A FIFO isn't waited for.
for kind in nothing device fifo; do
    cp -R old "$kind"
    case $kind in
    nothing) ln -s nowhere nothing/p/B.class ;;
    device) ln -s /dev/null device/p/B.class ;;
    fifo) mkfifo fifo/p/B.class ;;
    esac
    check "$kind"
    see "a class file's path that leads to a $kind" 4 '' $'jcompat: new: read fault\n' "${asked[@]}"
done

# What is at a limit.
mkdir -p most/p
truncate -s 4194304 most/p/A.class
check most
see 'a class file of as many bytes as it may have' 3 '' $'jcompat: new: p/A.class: BadMagic at 0\n' "${asked[@]}"
mkdir -p many/p
for ((i = 0; i < 40000; i++)); do
    : >"many/p/A$i.class"
done
check many
see 'as many class files as there may be' 3 '' $'jcompat: new: p/A0.class: Short at 0\n' "${asked[@]}"
: >many/p/B.class
see 'a class file more' 7 '' $'jcompat: new: limit files\n' "${asked[@]}"
see 'a class file more of a release that is linked' 7 '' $'jcompat: release: limit files\n' link --platform platform --release many --client client

# What a folder takes. A longer file at the path of a witness, or a link, is replaced, and what the link leads to stays as it was.
witness=000001/w0/U.class
mkdir -p again/000001/w0 apart/000001/w0 shut/$witness
head -c 10000 /dev/zero >again/$witness
echo apart >kept
ln -s ../../../kept apart/$witness
for folder in again apart; do
    check gone --witness "$folder"
    see "a witness in the place of what stands in the folder $folder" 1 "$class_gone" '' "${asked[@]}"
    [ ! -L "$folder/$witness" ] && cmp -s "written/$witness" "$folder/$witness" || see_failure "$folder" 'the witness is another one'
done
[ "$(cat kept)" = apart ] || see_failure apart 'what the link led to has changed'
check gone --witness shut
see 'a folder at the path of a witness' 5 '' '' "${asked[@]}"
check gone --witness "${long:0:300}"
see 'a witness below a name of 300 bytes' 5 '' '' "${asked[@]}"
[ "$(wc -c <old/p/A.class)" -eq 78 ] || see_failure 'a witness that cannot be written' 'a file was changed'

echo "statuses: $tries tries"
