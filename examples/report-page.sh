#!/bin/sh
# Makes the page of the examples by tools/report-page, and opens it in a browser: examples/report-page.sh [PICTURE.png], from any folder.
#
# Each line of the report has to stand on the page, which asks a network for nothing. In Chromium, without a screen, the page is filtered, links to
# a line and to what a rule means are followed, and where PICTURE.png is named a picture is taken. What isn't a report, and a report with a rule
# that the page doesn't know, have to end well. There is a line for each try. The status is 1 where one fails. Without a JDK nothing is tried, and
# without Chromium no page is opened, which is said, and the status is 0, or 1 where JCOMPAT_ALL=1 asks for all.
set -eu

case ${1:-} in
'' | /*) picture=${1:-} ;;
*) picture=$PWD/$1 ;;
esac
cd "$(dirname "$0")/.."

lacks() {
    say "not run: $1"
    [ "${JCOMPAT_ALL:-}" != 1 ] || exit 1
    exit 0
}

say() {
    printf 'report-page: %s\n' "$1"
}

fail() {
    say "$1" >&2
    exit 1
}

if ! command -v java >/dev/null || ! command -v javac >/dev/null; then
    lacks 'all, since java and javac are not on the path'
fi

made=$(mktemp -d)
trap 'rm -rf "$made"' EXIT
export XDG_CACHE_HOME="$made/cache"

# the new release breaks clients, so the status of the check is 1
check() {
    status=0
    ./jcompat check --platform examples/platform --old examples/old --new examples/new "$@" || status=$?
    [ "$status" -eq 1 ] || fail "the check ended with the status $status"
}

page() {
    tools/report-page "$@" examples/old examples/new --title shapes
}

check --json --witness "$made/witnesses" >"$made/report.json"
check >"$made/report"
page "$made/report.json" --witness "$made/witnesses" >"$made/page.html"
sed -n 's/^\([0-9]\{1,\}\) .*/\1/p' "$made/report" >"$made/numbers"
[ -s "$made/numbers" ] || fail 'the report has no lines'
while read -r number; do
    [ "$(grep -o "<li id=n$number " "$made/page.html" | wc -l)" -eq 1 ] || fail "the line $number doesn't stand on the page once"
done <"$made/numbers"
! grep -qE '(src|href)="?[a-z]*:?//' "$made/page.html" || fail 'the page asks a network for something'
say 'each line stands on the page once: ok'

page "$made/report" >"$made/text.html"
page "$made/report.json" >"$made/json.html"
cmp "$made/text.html" "$made/json.html" || fail 'lines and JSON give two pages'
say 'lines and JSON give one page: ok'

# in jars, the releases are the same
if command -v jar >/dev/null; then
    for side in old new; do jar -cf "$made/$side.jar" -C "examples/$side" shapes; done
    tools/report-page "$made/report" "$made/old.jar" "$made/new.jar" --title shapes >"$made/jars.html"
    sed "s|$made/old.jar|examples/old|g; s|$made/new.jar|examples/new|g" "$made/jars.html" | cmp "$made/text.html" - || fail 'jars and folders give two pages'
    say 'jars and folders give one page: ok'
fi

sed '1s/ H1 / H99 /' "$made/report" >"$made/newer"
page "$made/newer" >"$made/newer.html" || fail 'a rule of a newer release stops the page'
grep -q '<b>H99</b> shapes.Square: a client ends with NoClassDefFoundError' "$made/newer.html" || fail 'a rule of a newer release has no sentence'
say 'a rule that is not known has a sentence: ok'

# warnings: the code links, and the page doesn't call it compatible without a word
for side in old new; do
    mkdir -p "$made/abstract/$side"
    javac -d "$made/abstract/$side" $(find examples/rules/abstract_method_added/$side -name '*.java')
done
tools/check-jars "$made/abstract/old" "$made/abstract/new" --needed --json --page "$made/own.html" >"$made/document.json" || fail 'a warning alone fails the check'
tools/report-page "$made/document.json" "$made/abstract/old" "$made/abstract/new" >"$made/warned.html"
for one in own warned; do
    grep -q '<h1 class=may>Links; 1 call may fail</h1>' "$made/$one.html" && grep -q '<b>warning</b> ' "$made/$one.html" || fail "$one.html hides a warning"
done
say 'warnings are on the page, and its headline says so: ok'

# refused LINE WORD..: the page isn't made, with the status 70 and one line that ends so
refused() {
    line=$1
    shift
    status=0
    tools/report-page "$@" >"$made/out" 2>"$made/err" || status=$?
    [ "$status" -eq 70 ] && [ ! -s "$made/out" ] && [ "$(wc -l <"$made/err")" -eq 1 ] && grep -q "^report-page: .*$line" "$made/err" ||
        fail "no line \"$line\", but the status $status and: $(cat "$made/err")"
}

refused "isn't a report of jcompat check" README.md examples/old examples/new
refused "can't be read" "$made/none" examples/old examples/new
refused "there is no file $made/none" "$made/report" "$made/none" examples/new
refused "isn't a jar or a folder" "$made/report" README.md examples/new
refused "isn't the old release of this report" "$made/report" examples/platform examples/new
refused "there is no folder $made/none" "$made/report" examples/old examples/new --witness "$made/none"
refused 'are needed' "$made/report" examples/old
refused 'no option --dark' --dark
say 'what is no report is refused: ok'

browser=$(command -v chromium || command -v chromium-browser || command -v google-chrome) || {
    lacks 'the page in a browser, since there is no Chromium'
}

browse() {
    timeout 120 "$browser" --headless=new --no-sandbox --disable-gpu --hide-scrollbars --user-data-dir="$made/profile" --window-size=1200,1000 \
        --virtual-time-budget=2000 "$@" 2>"$made/err"
}

# open HASH TEXT..: what the document is, once the page's own script has read the hash, has each text
open() {
    hash=$1
    shift
    browse --dump-dom "file://$made/page.html$hash" | tr '\n' '~' >"$made/dom" || fail "the browser ends with a fault: $(tail -n 3 "$made/err")"
    for text in 'data-ready="yes"' "$@"; do
        grep -qF -- "$text" "$made/dom" || fail "opened at \"$hash\", the page hasn't: $text"
    done
}

open '' '13 lines</output>'
open '#rule=H8' '2 of 13 lines</output>'
[ "$(grep -o '<li id="n[0-9]*"[^>]*>' "$made/dom" | grep -vc hidden)" -eq 2 ] || fail 'the filter leaves other lines than those that it counts'
open '#q=painter+paint&rule=H9' '1 of 13 lines</output>'
open '#package=shapes&q=width' '2 of 13 lines</output>'
open '#q=nothing-has-this' 'No line has this'
say 'the page is filtered: ok'
open '#n8' '<li id="n8" data-r="H8" class="at"><details open="">' 'public static void use(' '<mark>    ← NoSuchMethodError</mark>' \
    '8 H8 shapes/Canvas draw(Lshapes/Shape;)V invokevirtual java/lang/Object NoSuchMethodError'
open '#method_closed' 'id="method_closed" open=""'
say 'links are followed: ok'

if [ -n "$picture" ]; then
    # a picture of a page that was scrolled is white, so the page stands whole in a frame, in a page that doesn't scroll
    printf '<!doctype html><style>html,body{margin:0;height:100vh;overflow:clip}</style><iframe src="page.html#n8" style="border:0;width:100%%;height:4000px"></iframe>' \
        >"$made/frame.html"
    browse --window-size=1000,1480 --screenshot="$picture" "file://$made/frame.html" && [ -s "$picture" ] || fail 'no picture was taken'
    say "the picture is in $picture: ok"
fi
