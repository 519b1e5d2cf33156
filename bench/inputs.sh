#!/usr/bin/env bash
# Gets real class files to measure and to judge with:  bench/inputs.sh OUT [NAME..]
#
# A folder of OUT that is there already stays. What is made, or where names are given, of what follows nothing those alone:
#   jdk/            all modules of the JDK whose javac is on the path, by its jimage
#   base/           java.base alone
#   root/           java/lang/Object alone
#   nothing/        an empty release
#   api/old, new    the API of JDK 7 and of JDK 8, from the ct.sym of that javac
#   update/old, new two updates of OpenJDK 17, all modules, from Debian packages
#   openjfx/old, new  a library that became a module: the classes of one jar, of which the new release has the module's file too
#   NAME/old, new   two releases of a library, the jars of Debian packages, by apt-get download; NAME/with has libraries that they need,
#                   NAME/clients classes that were compiled against the old release, or against one between the two, and NAME/jars their jars
#
# What the archive hasn't any more is passed over, which is said. Left out are what is below META-INF, and the classes that the JDK has too, as
# check-jars does; of libraries those of a release too, and of clients those in packages that the others have.
set -u
out=${1:?usage: bench/inputs.sh OUT [NAME..]}
shift
wanted=" $* "
mkdir -p -- "$out" && out=$(cd -- "$out" && pwd) || exit 1
javac=$(command -v javac) || { echo "inputs: no javac on the path" >&2; exit 1; }
jdk=$(dirname -- "$(dirname -- "$(readlink -f -- "$javac")")")
scratch=$(mktemp -d -p "$out") || exit 1
trap 'rm -rf -- "$scratch"' EXIT

# The pairs: a name, and the packages of the old release, of the new one, of libraries that they need, and of clients of the old one.
pairs() {
    cat <<'END'
junit | junit=3.8.2-9 | junit4=4.13.2-3 | libhamcrest-java ant | ant-optional libxmlunit-java
tomcat | libtomcat10-java=10.1.55-1~deb12u1 | libtomcat10-java=10.1.60-1~deb12u1 | ant |
tomcat-10 | libtomcat9-java=9.0.70-2 | libtomcat10-java=10.1.60-1~deb12u1 | ant libservlet-api-java libjsp-api-java libel-api-java libgeronimo-jta-1.2-spec-java |
zookeeper | libzookeeper-java=3.8.0-11+deb12u1 | libzookeeper-java=3.8.0-11+deb12u2 | libslf4j-java libnetty-java |
lucene-4 | liblucene3-java=3.6.2+dfsg-26 | liblucene4.10-java=4.10.4+dfsg-7.1 | libicu4j-java libspatial4j-0.4-java | omegat
lucene-8 | liblucene4.10-java=4.10.4+dfsg-7.1 | liblucene8-java=8.8.1-4 | libicu4j-java libspatial4j-0.4-java libspatial4j-java libjts-java | jameica-h2database
pdfbox | libpdfbox-java=1:1.8.16-2 libfontbox-java=1:1.8.16-2 libjempbox-java=1:1.8.16-2 | libpdfbox2-java=2.0.27-2 libfontbox2-java=2.0.27-2 | libcommons-logging-java libbcprov-java libbcmail-java libbcpkix-java | jabref
fontbox | libfontbox-java=1:1.8.16-2 | libfontbox2-java=2.0.27-2 | libcommons-logging-java |
hsqldb | libhsqldb1.8.0-java=1.8.0.10+dfsg-11+deb12u1 | libhsqldb-java=2.7.1-1+deb12u1 | libservlet-api-java | libreoffice-sdbc-hsqldb
itext | libitext1-java=1.4-7 | libitext-java=2.1.7-14 | libbcprov-java libbcmail-java libbcpkix-java | libcore-renderer-java libitext-rtf-java
log4j | liblog4j1.2-java=1.2.17-11 | liblog4j2-java=2.19.0-2 | libmail-java libgeronimo-jms-1.1-spec-java | libslf4j-java libactivemq-java
equinox | libequinox-osgi-java=3.9.1-6 | libeclipse-osgi-java=3.18.200+eclipse4.26-4 | | libequinox-common-java libequinox-registry-java
mina | libmina-java=1.1.7.dfsg-13 | libmina2-java=2.2.1-3 | libslf4j-java | zemberek-server
ecj | libecj-java=3.16.0-1 | libeclipse-jdt-core-java=3.32.0+eclipse4.26-2 | ant | libtomcat9-java
jpa | libgeronimo-jpa-2.0-spec-java=1.1-4 | libjpa-2.1-spec-java=2.1.0.v201304241213-1.1 | | libspring-orm-java
jaxrs | libjsr311-api-java=1.1.1-1.1 | libjaxrs-api-java=2.1.2-2 | | libjersey1-core-java
validation | libgeronimo-validation-1.0-spec-java=1.1-3 | libgeronimo-validation-1.1-spec-java=1.0-2 | | libhibernate-validator4-java libspring-context-java
saxon | libsaxonb-java=9.1.0.8+dfsg-2 | libsaxonhe-java=9.9.1.5+dfsg-1 | | libjing-java libxmlbeans-java
jline | libjline-java=1.0-3 | libjline2-java=2.14.6-5 | libjansi-java | bsh sqlline rhino
quartz | libquartz-java=1:1.8.6-8 | libquartz2-java=2.3.2-4 | libslf4j-java libgeronimo-jta-1.2-spec-java libservlet-api-java | libshiro-java libspring-context-support-java
trove | libtrove-java=2.1.0-3 | libtrove3-java=3.0.3-5 | |
testng | testng=6.9.12-4 | libtestng7-java=7.5-2~deb12u1 | junit4 libjcommander-java bsh libguice-java libyaml-snake-java | libsurefire-java libspring-test-java
pico | libpicocontainer1-java=1.3-4 | libpicocontainer-java=2.15+repack-3 | |
jgrapht | libjgrapht0.8-java=0.8.3-6 | libjgrapht-java=1.5.1-3 | libjgraph-java |
async-http | libasync-http-client-java=2.12.3-1 | libasync-http-client-java=2.12.3-1+deb12u1 | libnetty-java libslf4j-java libreactive-streams-java |
END
}
updates='17.0.19+10-1~deb12u2 17.0.21.1+2-1~deb12u1'

# keep FOLDER AS: the class files of a folder that are no part of a module's or an archive's own data
keep() {
    rm -rf -- "$1/META-INF" "$1/module-info.class"
    find "$1" -type f ! -name '*.class' -delete
    find "$1" -type d -empty -delete
    mkdir -p -- "$(dirname -- "$2")" && mv -- "$1" "$2"
}

# without FOLDER OTHER..: takes away the classes that another folder has too
without() {
    local folder=$1 other
    shift
    for other; do
        find "$folder" -name '*.class' -printf '%P\n' | while read -r file; do [ ! -e "$other/$file" ] || rm -- "$folder/$file"; done
    done
}

# alone FOLDER OTHER..: takes away the classes whose package another folder has too
alone() {
    local folder=$1 other
    shift
    for other; do
        find "$folder" -type d -printf '%P\n' | while read -r package; do
            ! compgen -G "$other/$package/*.class" >/dev/null || rm -f -- "$folder/$package"/*.class
        done
    done
}

# modules IMAGE TO: each module of a JDK in a folder
modules() {
    mkdir -p -- "$2" && "$jdk/bin/jimage" extract --dir "$2" "$1"
}

# together FOLDER TO: the classes of all modules
together() {
    mkdir -p -- "$2" && cp -al -- "$1"/*/. "$2"
}

platform() {
    modules "$jdk/lib/modules" "$scratch/modules" && together "$scratch/modules" "$scratch/jdk" || return
    keep "$scratch/jdk" "$out/jdk"
    keep "$scratch/modules/java.base" "$out/base"
    mkdir -p "$out/root/java/lang" "$out/nothing" && cp "$out/base/java/lang/Object.class" "$out/root/java/lang/"
}

# api SIDE LETTER: a folder of ct.sym holds what the releases of its letters share, a folder for each module
api() {
    mkdir -p "$scratch/$1"
    [ -d "$scratch/signatures" ] || unzip -qq "$jdk/lib/ct.sym" -d "$scratch/signatures" || return
    for folder in "$scratch/signatures"/*; do
        case ${folder##*/} in
        *-*) ;;
        *"$2"*) for module in "$folder"/*; do cp -a -- "$module/." "$scratch/$1/"; done ;;
        esac
    done
    find "$scratch/$1" -name '*.sig' -exec sh -c 'for f; do mv -- "$f" "${f%.sig}.class"; done' sh {} +
    rm -f "$scratch/$1/java/lang/Object.class"
    keep "$scratch/$1" "$out/api/$1"
}

# fetch PACKAGE..: packages of Debian, as PACKAGE or PACKAGE=VERSION; at once, since apt reads its lists anew each time
fetch() {
    local package
    mkdir -p "$scratch/deb" && cd "$scratch/deb" || return
    apt-get -qq download "$@" 2>/dev/null || for package; do
        apt-get -qq download "$package" 2>/dev/null || echo "inputs: the archive hasn't $package" >&2
    done
    cd "$out" || return
}

# files FOLDER PACKAGE..: what lies in packages that were fetched
files() {
    local folder=$1 package archive
    shift
    for package; do
        # a file has the name NAME_VERSION_ARCHITECTURE.deb
        case $package in
        *=*) archive=${package/=/_}_ ;;
        *) archive=${package}_ ;;
        esac
        archive=$(find "$scratch/deb" -name "${archive//:/%3a}*.deb" | head -n 1)
        [ -n "$archive" ] && dpkg-deb -x "$archive" "$folder" || return
    done
}

# release NAME SIDE PACKAGE..: the classes of all jars of Debian packages
release() {
    local name=$1 side=$2
    local made=$scratch/$name-$side
    shift 2
    mkdir -p "$made/classes"
    files "$made/files" "$@" || return
    find "$made/files" -name '*.jar' -type f -exec unzip -qq -o {} '*.class' -d "$made/classes" \; 2>/dev/null
    keep "$made/classes" "$scratch/$name/$side"
    without "$scratch/$name/$side" "$out/jdk"
    rm -rf "$made"
}

# jars NAME PACKAGE..: the jars of clients, as they are
jars() {
    local folder=$scratch/$1/jars
    mkdir -p "$folder"
    shift
    files "$scratch/packages" "$@" || return
    find "$scratch/packages" -name '*.jar' -type f -exec mv -t "$folder" {} +
    rm -rf "$scratch/packages"
}

# pair NAME OLD NEW LIBRARIES CLIENTS: the last four have names of packages with spaces between
pair() {
    local made=$scratch/$1
    release "$1" old $2 && release "$1" new $3 || return
    [ -z "$4" ] || { release "$1" with $4 && without "$made/with" "$made/old" "$made/new"; } || return
    [ -z "$5" ] || { release "$1" clients $5 && alone "$made/clients" "$out/jdk" "$made"/[onw]* && jars "$1" $5; } || return
    mv -- "$made" "$out/$1"
}

# update SIDE VERSION: a JDK
update() {
    local made=$scratch/jdk-$1
    mkdir -p "$made"
    # a package may have a link to the folder of its JDK beside that
    files "$made/files" "openjdk-17-jre-headless=$2" && modules "$(find "$made/files" -path '*/lib/modules' -type f | head -n 1)" "$made/modules" || return
    together "$made/modules" "$scratch/$1"
    rm -f "$scratch/$1/java/lang/Object.class"
    keep "$scratch/$1" "$scratch/update/$1"
    rm -rf "$made"
}

# became_module NAME PACKAGE JAR: the classes of a modular jar of a package, first without its module's file and then with it
became_module() {
    local made=$scratch/$1
    mkdir -p "$made"
    files "$made/files" "$2" && unzip -qq "$made/files/usr/share/java/$3" '*.class' -d "$made/new" || return
    rm -rf "$made/files" "$made/new/META-INF"
    cp -al "$made/new" "$made/old" && rm "$made/old/module-info.class" && mv -- "$made" "$out/$1"
}

# is_wanted NAME: whether it is to be made
is_wanted() {
    [ ! -d "$out/$1" ] && case $wanted in '  ' | *" $1 "*) ;; *) false ;; esac
}

[ -d "$out/jdk" ] || platform
! is_wanted api || { api old 7 && api new 8; }
packages=()
! is_wanted update || for version in $updates; do packages+=("openjdk-17-jre-headless=$version"); done
while IFS='|' read -r name words; do
    ! is_wanted "${name// /}" || packages+=(${words//|/ })
done < <(pairs)
! is_wanted openjfx || packages+=(libopenjfx-java)
[ ${#packages[@]} -eq 0 ] || fetch "${packages[@]}"
! is_wanted openjfx || became_module openjfx libopenjfx-java javafx-base-11.jar
! is_wanted update || { update old "${updates% *}" && update new "${updates#* }" && mv "$scratch/update" "$out/update"; }
while IFS='|' read -r name old new libraries clients; do
    ! is_wanted "${name// /}" || pair "${name// /}" "$old" "$new" "${libraries# }" "${clients# }"
done < <(pairs)
