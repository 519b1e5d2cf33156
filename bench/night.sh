#!/usr/bin/env bash
# Measures a distribution's night, 200 clients over updates of Tomcat and Lucene:  bench/night.sh PROGRAM INPUTS >bench/night.txt
#
# INPUTS is the folder of bench/inputs.sh, which is asked for the JDK at hand and for both releases of each update. Below INPUTS/night are the Debian
# packages of the clients, of which those that are there aren't fetched again, and a folder for each of their jars. A client is a jar alone: its class
# files but for those in packages of the JDK, of a release or of a library that a release needs; libraries of its own are missing, which are errors before.
# The first 200 that `clients` doesn't refuse are taken, the same for each update, or CLIENTS=N of them.
#
# For each update `check` and `clients` over all clients are run, and for each client `link` with the old and with the new release, and the lines of
# `clients` are compared with what the two say. With LINKS=N only so many clients are linked, spread evenly, and what all would take is reckoned. Times
# are of the processor, of the user and of the system: of `check` the least of three runs, of `clients` that of one, of `link` the mean.
set -u
export LC_ALL=C
program=$(readlink -f -- "${1:?usage: bench/night.sh PROGRAM INPUTS}") || exit 1
here=$(dirname -- "$(readlink -f -- "$0")")
time=$(type -P time) || { echo "night: no program time is installed" >&2; exit 1; }
updates='tomcat-10 lucene-8'
# first those that use Tomcat or Lucene, or the servlets that Tomcat declares
packages='libjetty9-extra-java liblogback-java libequinox-jsp-jasper-java libspring-context-java libspring-web-java jameica-h2database libh2-java omegat
    libjetty9-java libcommons-fileupload-java liblog4j2-java libresteasy3.0-java libjnlp-servlet-java libphonenumber8-java libopenrefine-butterfly-java
    libjtharness-java libreflections-java libcommons-jxpath-java libhsqldb-java libaxis-java libowasp-esapi-java liboscache-java libopenid4java-java
    libcommons-logging-java libactivemq-java libapache-jena-java libapache-poi-java libavro-java libaxiom-java libcommons-beanutils-java
    libcommons-configuration2-java libcommons-dbcp2-java libcommons-digester-java libcommons-httpclient-java libcommons-jexl3-java libcommons-text-java
    libcommons-validator-java libcommons-vfs-java libcurator-framework-java libdoxia-java libdsiutils-java libeclipselink-java libehcache-java libfop-java
    libgradle-core-java libhibernate3-java libhikaricp-java libhttpclient-java libjackrabbit-java libjgit-java libjgroups-java libmaven-resolver-java
    libmaven3-core-java libmina2-java libnetty-java libopenjpa-java libowlapi-java libpdfbox2-java libquartz2-java librabbitmq-client-java'
"$here/inputs.sh" "${2:?usage: bench/night.sh PROGRAM INPUTS}" $updates
inputs=$(cd -- "$2" && pwd) || exit 1
night=$inputs/night
mkdir -p -- "$night/debs"
made=$(mktemp -d -p "$night") || exit 1
trap 'rm -rf -- "$made"' EXIT

classes() { find "$@" -name '*.class' | wc -l; }

# fetch: the packages that aren't there
fetch() {
    local package
    cd "$night/debs" || return
    for package in $packages; do
        compgen -G "${package}_*.deb" >/dev/null || apt-get -qq download "$package" 2>/dev/null || echo "night: the archive hasn't $package" >&2
    done
}

# client JAR TO: the class files of a jar, where it has any that a client may have
client() {
    mkdir -p "$2" && unzip -qq -o "$1" '*.class' -d "$2" 2>/dev/null
    rm -rf "$2/META-INF" "$2/module-info.class"
    (cd "$2" && find . -name '*.class' | awk 'NR == FNR { taken[$0]; next } { package = $0; sub("/[^/]*$", "", package) } package in taken' "$made/taken" - |
        tr '\n' '\0' | xargs -0 -r rm)
    find "$2" -type d -empty -delete
}

clients() {
    local package folder update jar number=0
    (fetch)
    { echo jdk; for update in $updates; do printf '%s\n' "$update"/{old,new,with}; done; } | while read -r folder; do
        (cd "$inputs/$folder" && find . -name '*.class' -printf '%h\n')
    done | sort -u >"$made/taken"
    mkdir -p "$made/clients"
    for package in $packages; do
        dpkg-deb -x "$night/debs/$package"_*.deb "$made/files" 2>/dev/null || continue
        number=$((number + 1))
        find "$made/files" -name '*.jar' -type f | sort | while read -r jar; do
            client "$jar" "$made/clients/$(printf '%02d_%s_%s' $number "$package" "$(basename "$jar" .jar)")"
        done
        rm -rf "$made/files"
    done
    mv "$made/clients" "$night/clients"
}

# over UPDATE: a platform, with the libraries of the update
over() {
    cp -Rl -- "$inputs/jdk" "$made/platform-$1" && cp -R --remove-destination -- "$inputs/$1/with/." "$made/platform-$1"
}

# spent COMMAND..: seconds of processor, and kilobytes at the peak; what it prints is in the file said
spent() {
    "$time" -q -o "$made/spent" -f '%U %S %M' "$@" >"$made/said" 2>/dev/null
    awk '{ print $1 + $2, $3 }' "$made/spent"
}

least() {
    for _ in 1 2 3; do spent "$@"; done | awk '{ if (NR == 1 || $1 < t) t = $1; if (NR == 1 || $2 < m) m = $2 } END { print t, m }'
}

# lost OLD NEW: the lines of links that are ok with the old release and errors with the new
lost() {
    awk '!/^(class|item) / { next } { outcome = $NF; sub(" [^ ]*$", ""); if (NR == FNR) { if (outcome == "ok") was[$0] } else if (outcome != "ok" && $0 in was) print $0, outcome }' "$1" "$2"
}

# links UPDATE: two runs for each client; their costs to a file, and how many clients are linked, how many use the old release, and how many aren't told the same
links() {
    local number=0 folder most=${LINKS:-${#chosen[@]}} linked=0 uses=0 differ=0
    (cd "$inputs/$1/old" && find . -name '*.class' | sed 's,^\./,,; s,\.class$,,') >"$made/names"
    for folder in "${chosen[@]}"; do
        number=$((number + 1))
        [ $((number * most / ${#chosen[@]})) -gt $(((number - 1) * most / ${#chosen[@]})) ] || continue
        linked=$((linked + 1))
        for side in old new; do
            spent "$program" link --platform "$made/platform-$1" --release "$inputs/$1/$side" --client "$folder" >>"$made/links-$1"
            mv "$made/said" "$made/$side"
        done
        ! awk 'NR == FNR { of[$0]; next } $1 == "item" && $4 in of { found = 1; exit } END { exit !found }' "$made/names" "$made/old" || uses=$((uses + 1))
        sed -n -E "s/^client $number (class|item) /\1 /p" "$made/clients-$1" | cmp -s - <(lost "$made/old" "$made/new") || differ=$((differ + 1))
    done
    echo "$linked $uses $differ"
}

# row VALUE..: a line of the update's column
row() { printf '%s\n' "$*" >>"$made/column"; }

# column UPDATE
column() {
    local sides check all peak_all check_peak largest_peak link_peak none_peak linked uses differ
    sides=(--platform "$made/platform-$1" --old "$inputs/$1/old" --new "$inputs/$1/new")
    read -r check check_peak < <(least "$program" check "${sides[@]}")
    read -r all peak_all < <(spent "$program" clients "${sides[@]}" "${chosen[@]}")
    cp "$made/said" "$made/clients-$1"
    read -r _ largest_peak < <(spent "$program" clients "${sides[@]}" "$largest")
    read -r _ link_peak < <(spent "$program" link --platform "$made/platform-$1" --release "$inputs/$1/new" --client "$largest")
    read -r _ none_peak < <(spent "$program" clients "${sides[@]}" "$inputs/nothing")
    read -r linked uses differ < <(links "$1")
    sed -n "s/^$1 | \([^|]*\) | \([^|]*\) |.*/\1 to \2/p" "$here/inputs.sh" | sed 's/=/ /; s/ to [^=]*=/ to /' >"$made/column"
    row "$(classes "$made/platform-$1"), $(classes "$inputs/$1/old"), $(classes "$inputs/$1/new")"
    awk -v check="$check" -v all="$all" -v n="${#chosen[@]}" '{ t += $1 } END {
        printf "%.2f s\n%.2f s\n%.1f s\n%.3f s\n%.3f s\n%.3f\n%.1f\n", check, all, 2 * n * t / NR, t / NR, (all - check) / n, (all - check) / n / (t / NR), 2 * n * t / NR / all }' \
        "$made/links-$1" >>"$made/column"
    row "$(awk -v c="$check_peak" -v l="$link_peak" -v a="$peak_all" -v g="$largest_peak" -v e="$none_peak" 'BEGIN {
        printf "%.0f MB\n%.0f MB\n%.0f MB\n%.0f MB\n%.0f MB", c / 1024, l / 1024, a / 1024, g / 1024, e / 1024 }')"
    awk '$3 ~ /^(keeps|breaks):$/ { outcomes += $6; errors += $8; lost += $11; if ($3 == "breaks:") broken++ } END { print outcomes + 0 "\n" errors + 0 "\n" broken + 0 "\n" lost + 0 }' "$made/clients-$1" >>"$made/column"
    row "$linked"
    row "$uses"
    row "$differ"
    mv "$made/column" "$made/column-$1"
}

[ -d "$night/clients" ] || clients
for update in $updates; do over "$update" || exit 1; done
# what is refused with one update is with each: no client has a class in a package of any of them
if [ ! -e "$night/refused" ]; then
    chosen=("$night/clients"/*)
    update=${updates##* }
    "$program" clients --platform "$made/platform-$update" --old "$inputs/$update/old" --new "$inputs/$update/new" "${chosen[@]}" >"$made/first"
    [ $? -le 1 ] || { echo "night: no report on $update" >&2; exit 1; }
    for number in $(sed -n 's/^client \([0-9]*\) jcompat: .*/\1/p' "$made/first"); do basename -- "${chosen[number - 1]}"; done >"$night/refused"
fi
mapfile -t chosen < <(ls "$night/clients" | grep -vxFf "$night/refused" | head -n "${CLIENTS:-200}" | sed "s,^,$night/clients/,")
largest=$(for folder in "${chosen[@]}"; do find "$folder" -name '*.class' -printf '%s\n' | awk -v folder="$folder" '{ b += $1 } END { print b + 0, NR, folder }'; done | sort -n | tee "$made/sizes" | tail -n 1 | cut -d ' ' -f 3-)

for update in $updates; do column "$update"; done
printf '%s, %s processors, %s GB of memory, %s\n\n' "$(date -u +%F)" "$(nproc)" "$(awk '/^MemTotal/ { printf "%d", $2 / 1000000 }' /proc/meminfo)" "$(java -version 2>&1 | head -n 1)"
awk -v refused="$(wc -l <"$night/refused")" '{ n += $2; b += $1; if ($1 >= most) { most = $1; of = $2; name = $3 } } END {
    sub(".*/[0-9]*_", "", name)
    printf "%d clients of %d class files and %d bytes; the largest is %s, of %d and %d. %d others were refused and left out.\n\n", NR, n, b, name, of, most, refused }' "$made/sizes"
cat >"$made/names" <<'END'
update
class files of the platform, the old release and the new one
`check`
`clients`, all at once
two runs of `link` for each client, by the mean of those that were linked
one `link`, the mean
`clients` beyond a `check`, a client
as a part of one `link`
all by `link` are so many times `clients`
peak of `check`
of `link`, the largest client
of `clients`, all at once
of `clients`, the largest alone
of `clients`, one without classes
outcomes with the old release
of these errors
clients that break
losses
clients that were linked
of these use the old release
of these `link` says another thing
END
paste -d '|' "$made/names" $(printf "$made/column-%s " $updates) | sed 's/|/ | /g; s/^/| /; s/$/ |/; 1{p; s/[^|]\+/---/g}'
printf '\nPackages of the clients, with their jars:\n\n'
printf '%s\n' "${chosen[@]}" | sed 's,.*/[0-9]*_,,; s/_.*//' | uniq -c | while read -r count package; do
    printf '%s %s: %s\n' "$package" "$(dpkg-deb -f "$night/debs/$package"_*.deb Version)" "$count"
done
