#!/bin/sh
# Tries what ./jcompat and tools/release do with the program of a release: examples/release.sh, from any folder.
#
# All of it is tried in a made-up clone of two crates, with a script in the place of the program and one in that of the kit, over a path that has only what they call. Nothing is proved,
# and no JDK is needed. There is a line for each try, and the status is 1 where one goes otherwise. Without the sources or git nothing is tried, which is said, and the status is
# 0, or 1 where JCOMPAT_ALL=1 asks for all.
set -eu

cd "$(dirname "$0")/.."

lacks() {
    printf 'release: not run: %s\n' "$1"
    [ "${JCOMPAT_ALL:-}" != 1 ] || exit 1
    exit 0
}
[ -f tools/release ] || lacks 'this is no clone'
command -v git >/dev/null || lacks 'git is not on the path'

made=$(mktemp -d)
trap 'rm -rf "$made"' EXIT
unset JCOMPAT_BUILD JCOMPAT_ALL JCOMPAT_TOOL SOURCE_DATE_EPOCH
export XDG_CACHE_HOME="$made/cache" TMPDIR="$made/passing"
export GIT_AUTHOR_NAME=release GIT_AUTHOR_EMAIL=release@example.com GIT_COMMITTER_NAME=release GIT_COMMITTER_EMAIL=release@example.com GIT_CONFIG_GLOBAL=/dev/null
mkdir "$made/bin" "$made/kit" "$made/passing"

# what the launcher and the tools call, and no more
for tool in awk cat chmod cksum cmp cp cut date dirname find git grep gzip head ln ls mkdir mktemp mv readlink rm sed sh sha256sum sort stat tac tail tee touch tr uname wc; do
    ln -s "$(command -v "$tool")" "$made/bin/$tool"
done

# script NAME LINE..: a script of these lines
script() {
    to=$1
    shift
    printf '%s\n' '#!/bin/sh' "$@" >"$to"
    chmod 755 "$to"
}
script "$made/bin/getconf" 'echo glibc 2.31'
script "$made/bin/df" 'echo size' 'echo disk 99999999 0 99999999 0% /'

# the program: it says its words, with the status 1, and over an older C library what the loader says
cat >"$made/program" <<'END'
#!/bin/sh
# version GLIBC_2.34, and GLIBC_2.2.5
[ -z "${OLDER:-}" ] || { echo "$0: /lib/libc.so.6: version 'GLIBC_2.34' not found (required by $0)" >&2 && exit 1; }
[ "$1" != make ] || exit 0
echo "the answer to $*"
exit 1
END
chmod 755 "$made/program"
{ cat "$made/program" && echo '# more'; } >"$made/other.program" && chmod 755 "$made/other.program"

# the kit: it builds that program, and with --anew another one where SPOILS is set; its clang only copies
script "$made/kit/rt" 'case $1 in' \
    "doc) echo $made/kit/START-HERE.md ;;" \
    'version) echo kit 1 ;;' \
    "ci) mkdir -p crates/jcompat/out && cp $made/program crates/jcompat/out/jcompat && echo rt: jcompat proved" \
    '[ "${2:-}${SPOILS:-}" != --anew1 ] || echo "# more" >>crates/jcompat/out/jcompat ;;' \
    'esac'
mkdir -p "$made/kit/toolchain/bin"
script "$made/kit/toolchain/bin/clang" '[ "$1 $2" = "--strip-all -o" ] && cp "$4" "$3"'

# a clone with two crates that the program needs, and one that it doesn't
clone=$made/clone
mkdir -p "$clone/tools" "$clone/crates/low/src" "$clone/crates/low/specs" "$clone/crates/above/src" "$clone/crates/jcompat/src/tests" "$clone/crates/jcompat/proofs" "$clone/crates/jc_words/src"
cp jcompat "$clone"
cp crates/jc_words/src/help.rt "$clone/crates/jc_words/src"
cp tools/release tools/released tools/sources tools/version "$clone/tools"
printf '/crates/*/out/\n' >"$clone/.gitignore"
printf 'Handles allowed: none.\n' >"$clone/HANDLES"
printf '# lowest first\nlow:\nabove: low\njcompat: low\n' >"$clone/crates.txt"
for each in low/src/lib.rt low/specs/Lib.antt above/src/lib.rt jcompat/src/tests.rt jcompat/src/tests/one.rt jcompat/proofs/Lib.antt; do printf '%s\n' "$each" >"$clone/crates/$each"; done
printf 'fn main() {\n}\n\n#[cfg(test)]\nmod tests;\n' >"$clone/crates/jcompat/src/main.rt"
printf '# Changes\n\n## 1.0.0 (to be released)\n\n- The first.\n' >"$clone/CHANGELOG.md"
cd "$clone"
git init -q
git add -A
git commit -qm 'sources'

tries=0
without=$made/bin with=$made/kit:$made/bin
name=
# try NAME STATUS OUTPUT LINE PATH WORD..: the words with this path end with the status, and put just this output, and on standard error a line that has LINE, or nothing where that is empty
try() {
    name=$1 wanted=$2 output=$3 line=$4 path=$5
    shift 5
    status=0
    # in a shell of its own, so that no name is looked up before
    PATH=$path "$@" >"$made/out" 2>"$made/err" || status=$?
    printf "%s${output:+\n}" "$output" >"$made/due"
    [ "$status" -eq "$wanted" ] || go "the status is $status, and not $wanted"
    cmp -s "$made/due" "$made/out" || go 'the output is another'
    if [ -z "$line" ]; then [ ! -s "$made/err" ] || go 'something is said'; else grep -qF -- "$line" "$made/err" || go "no line has: $line"; fi
    printf 'release: %s: ok\n' "$name"
    tries=$((tries + 1))
}

go() {
    printf 'release: %s: FAILED: %s\n' "$name" "$1"
    cat "$made/out" "$made/err"
    exit 1
}

answer='the answer to check a b'
no_kit='the command rt of the Rattle kit, which builds it, is'

try 'no release was made' 0 'release: no release was made' '' "$without" tools/release --verify
try 'without release and kit' 70 '' "$no_kit" "$without" ./jcompat check a b
try 'the words of the launcher' 0 "$(./jcompat --help)" '' "$without" ./jcompat --help
version=$(tools/version)
case $version in 0.2*+g*) ;; *) go "the version is $version" ;; esac
try 'the version without a release' 0 "jcompat $version" '' "$without" ./jcompat --version

try 'a version that is none' 1 '' '1.0 is no version' "$with" tools/release 1.0
try 'a version without a heading' 1 '' 'CHANGELOG.md has no line' "$with" tools/release 1.0.1
export SPOILS=1
twice=$(printf 'release: building in X/%s\n' one 'and-another-one, from nothing: some 40 minutes on four processors')
release='tools/release 1.0.0 >"$1"; status=$?; sed "s,in /.*/,in X/," "$1"; exit "$status"'
try 'two builds that differ' 1 "$twice" 'two builds have other bytes' "$with" sh -c "$release" sh "$made/said"
unset SPOILS
mkdir -p crates/jcompat/out && cp "$made/other.program" crates/jcompat/out/jcompat
try 'a program of the gate that differs' 1 "$twice" 'crates/jcompat/out/jcompat has other bytes' "$with" sh -c "$release" sh "$made/said"
rm -r crates/jcompat/out
[ ! -e release ] && [ -z "$(git status --porcelain)" ] || go 'something was written'
PATH=$with tools/release 1.0.0 >"$made/out" 2>"$made/err" || go 'no release is made'
read -r sum _ <release/jcompat.sha256
[ "$sum" = "$(sha256sum <"$made/program" | cut -d ' ' -f 1)" ] || go 'the release has another program'
[ "$(ls release | tr '\n' ' ')" = 'VERSION jcompat.gz jcompat.sha256 kit sources.sha256 ' ] || go 'release/ has other files'
grep -q "^The program has the SHA-256 $sum" CHANGELOG.md && grep -qE '^## 1\.0\.0 \([0-9-]{10}\)$' CHANGELOG.md || go 'CHANGELOG.md says nothing of it'
git add -A
git commit -qm 'Release 1.0.0'
printf 'release: a release is made: ok\n'
try 'a release that was made' 1 '' "1.0.0 isn't later than 1.0.0" "$with" tools/release 1.0.0
try 'the version of a release' 0 'jcompat 1.0.0' '' "$without" ./jcompat --version
[ "$(tools/version)" = 1.0.0 ] || go "the version is $(tools/version)"

try 'the first run, without a kit' 1 "$answer" 'jcompat: the program of release 1.0.0, made from these sources' "$without" ./jcompat check a b
[ "$(wc -l <"$made/err")" -eq 1 ] || go 'more is said than one line'
mv "$made/bin/sha256sum" "$made"
try 'the second run, which reads no source' 1 "$answer" '' "$without" ./jcompat check a b
mv "$made/sha256sum" "$made/bin"
try 'the program that is run' 0 "$clone/crates/jcompat/out/release/jcompat" '' "$without" ./jcompat --program
touch -d '+2 seconds' crates/low/src/lib.rt
try 'a source with another time' 1 "$answer" '' "$without" ./jcompat check a b
touch -d '1 hour ago' crates/low/src/lib.rt
try 'building is asked for' 70 '' "$no_kit" "$without" sh -c 'JCOMPAT_BUILD=1 ./jcompat check a b'
rm -r crates/jcompat/out
: >crates/jcompat/out
try 'a folder that cannot be written' 1 "$answer" 'the program of release 1.0.0' "$without" ./jcompat check a b
mv "$made/bin/sha256sum" "$made"
try 'the second run there' 1 "$answer" '' "$without" ./jcompat check a b
mv "$made/sha256sum" "$made/bin"
try 'a cache that cannot be written either' 1 "$answer" 'the program of release 1.0.0' "$without" sh -c 'XDG_CACHE_HOME=/dev/null ./jcompat check a b'
[ -z "$(ls "$made/passing")" ] || go 'something is left'
try 'nothing can be written' 70 '' 'can be written' "$without" sh -c 'XDG_CACHE_HOME=/dev/null TMPDIR=/dev/null ./jcompat check a b'
rm crates/jcompat/out

# fresh: nothing is unpacked any more
fresh() {
    rm -rf crates/jcompat/out "$made/cache"
}
printf 'more\n' >>crates/above/src/lib.rt
printf 'more\n' >>crates/jcompat/src/tests/one.rt
try 'a changed source that the program does not need' 1 "$answer" 'the program of release 1.0.0' "$without" ./jcompat check a b
printf 'more\n' >>crates/low/specs/Lib.antt
try 'a changed source' 70 '' 'these sources are other ones than those of release 1.0.0' "$without" ./jcompat check a b
grep -qF "$no_kit" "$made/err" && grep -q 'git worktree add ../jcompat-1.0.0' "$made/err" || go 'what to do is not said'
try 'a changed source, and a kit' 1 "$answer" 'jcompat: building the program' "$with" ./jcompat check a b
try 'the program that was built goes before' 0 "$clone/crates/jcompat/out/jcompat" '' "$without" ./jcompat --program
try 'sources that have moved on' 0 'release: the sources have moved on since release 1.0.0' '' "$with" tools/release --verify
git checkout -q crates
fresh
mv crates/low/specs/Lib.antt crates/low/specs/Other.antt
try 'a source of another name' 70 '' 'these sources are other ones' "$without" ./jcompat check a b
git checkout -q crates && rm crates/low/specs/Other.antt

fresh
script "$made/bin/uname.new" 'echo Linux aarch64'
mv "$made/bin/uname" "$made/uname" && mv "$made/bin/uname.new" "$made/bin/uname"
try 'another processor' 70 '' "can't run on Linux aarch64. It runs on Linux on x86-64 with glibc, as in a container" "$without" ./jcompat check a b
mv "$made/uname" "$made/bin/uname"
OLDER=1 && export OLDER
try 'an older C library' 70 '' 'needs glibc 2.34, and this machine has glibc 2.31' "$without" ./jcompat check a b
unset OLDER
rm "$made/bin/gzip"
try 'a tool that is lacking' 70 '' 'gzip has to be on the path' "$without" ./jcompat check a b
ln -s "$(command -v gzip)" "$made/bin/gzip"

PATH=$with rt ci >/dev/null
try 'the same bytes' 0 'release: the program that was built here has the bytes of release 1.0.0: ok' '' "$with" tools/release --verify
printf '# more\n' >>crates/jcompat/out/jcompat
try 'a program of other bytes' 1 '' 'has other bytes' "$with" tools/release --verify
fresh
try 'no program was built' 0 'release: not run: no program was built here from these sources' '' "$with" tools/release --verify
printf 'kit 0\n' >release/kit
try 'another kit' 0 'release: release 1.0.0 was made by another kit, kit 0' '' "$with" tools/release --verify
git checkout -q release

{ cat "$made/program" && printf '#'; } | gzip -9n >release/jcompat.gz
try 'a program that is spoiled by a byte' 70 '' 'release/jcompat.gz is spoiled' "$without" ./jcompat check a b
try 'that program, compared' 1 '' "and not $sum as release/jcompat.sha256 says" "$with" tools/release --verify
try 'that program, and a kit' 1 "$answer" 'release/jcompat.gz is spoiled' "$with" ./jcompat check a b
fresh
git show HEAD:release/jcompat.gz | head -c 100 >release/jcompat.gz
try 'a program that is cut off' 70 '' 'release/jcompat.gz is spoiled' "$without" ./jcompat check a b
git checkout -q release

# a program without the loader that it asks for
sed 's,^#!/bin/sh,#!/nowhere/sh,' "$made/program" >"$made/other"
gzip -9n <"$made/other" >release/jcompat.gz
printf '%s  jcompat\n' "$(sha256sum <"$made/other" | cut -d ' ' -f 1)" >release/jcompat.sha256
script "$made/bin/getconf" 'exit 1'
try 'another C library' 70 '' 'this machine has another C library' "$without" ./jcompat check a b
git checkout -q release

git commit -q --allow-empty -m 'More'
case $(tools/version) in 1.0.0+2*.g*) ;; *) go "the version is $(tools/version)" ;; esac
git clone -q --depth 1 "file://$clone" "$made/short"
case $("$made/short/tools/version") in 1.0.0+2*.g*) ;; *) go "the version of a clone that is cut off is $("$made/short/tools/version")" ;; esac
printf 'release: the version behind a release: ok\n'

printf 'release: %s tries\n' "$tries"
