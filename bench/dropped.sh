#!/usr/bin/env bash
# Runs clients that use a class as an interface that it no longer implements:  bench/dropped.sh INPUTS
#
# INPUTS is a folder that bench/inputs.sh has made. Each client is compiled against the old release, and the machine whose java is on the path runs
# it with both. What is printed is a table in Markdown: the line of `check --dropped`, what the client does, and what it prints with each release,
# or the error that it ends with. Run it by hand.
set -eu
inputs=$(readlink -f -- "${1:?usage: bench/dropped.sh INPUTS}")
made=$(mktemp -d)
trap 'rm -rf -- "$made"' EXIT

# A client: the pair, the class, the interface, the act, a class of the client's own or nothing, statements.
clients() {
    cat <<'END'
log4j|org.apache.log4j.Layout|org.apache.log4j.spi.OptionHandler|call|static class U extends org.apache.log4j.Layout { public String format(org.apache.log4j.spi.LoggingEvent e) { return ""; } public boolean ignoresThrowable() { return true; } public void activateOptions() { } }|org.apache.log4j.spi.OptionHandler i = new U(); i.activateOptions(); System.out.println("called");
log4j|org.apache.log4j.spi.ErrorHandler|org.apache.log4j.spi.OptionHandler|call|static class U implements org.apache.log4j.spi.ErrorHandler { public void setLogger(org.apache.log4j.Logger l) { } public void error(String m, Exception e, int c) { } public void error(String m) { } public void error(String m, Exception e, int c, org.apache.log4j.spi.LoggingEvent v) { } public void setAppender(org.apache.log4j.Appender a) { } public void setBackupAppender(org.apache.log4j.Appender a) { } public void activateOptions() { } }|org.apache.log4j.spi.OptionHandler i = new U(); i.activateOptions(); System.out.println("called");
log4j|org.apache.log4j.spi.Filter|org.apache.log4j.spi.OptionHandler|call|static class U extends org.apache.log4j.spi.Filter { public int decide(org.apache.log4j.spi.LoggingEvent e) { return 0; } }|org.apache.log4j.spi.OptionHandler i = new U(); i.activateOptions(); System.out.println("called");
log4j|org.apache.log4j.spi.LoggingEvent|java.io.Serializable|store||java.io.Serializable[] a = new java.io.Serializable[1]; a[0] = new org.apache.log4j.spi.LoggingEvent("app", org.apache.log4j.Logger.getLogger("app"), org.apache.log4j.Level.INFO, "text", null); System.out.println("stored");
log4j|org.apache.log4j.xml.DOMConfigurator|org.apache.log4j.spi.Configurator|cast||Object o = new org.apache.log4j.xml.DOMConfigurator(); org.apache.log4j.spi.Configurator i = (org.apache.log4j.spi.Configurator) o; System.out.println("cast");
itext|com.lowagie.text.pdf.PdfPageLabels|java.util.Comparator|instanceof||Object o = new com.lowagie.text.pdf.PdfPageLabels(); System.out.println(o instanceof java.util.Comparator);
hsqldb|org.hsqldb.lib.DoubleIntIndex|org.hsqldb.lib.IntLookup|cast||Object o = new org.hsqldb.lib.DoubleIntIndex(8, false); org.hsqldb.lib.IntLookup i = (org.hsqldb.lib.IntLookup) o; System.out.println("cast");
hsqldb|org.hsqldb.lib.HsqlTimer|org.hsqldb.lib.ObjectComparator|cast||Object o = new org.hsqldb.lib.HsqlTimer(); org.hsqldb.lib.ObjectComparator i = (org.hsqldb.lib.ObjectComparator) o; System.out.println("cast");
pdfbox|org.apache.pdfbox.io.RandomAccessRead|org.apache.pdfbox.io.SequentialRead|call|static class U implements org.apache.pdfbox.io.RandomAccessRead { public long getPosition() { return 0; } public void seek(long p) { } public long length() { return 0; } public void close() { } public int read() { return -1; } public int read(byte[] b, int o, int l) { return -1; } }|org.apache.pdfbox.io.SequentialRead i = new U(); System.out.println(i.read());
pdfbox|org.apache.pdfbox.pdmodel.PDDocument|java.awt.print.Pageable|call||java.awt.print.Pageable i = new org.apache.pdfbox.pdmodel.PDDocument(); System.out.println(i.getNumberOfPages());
pdfbox|org.apache.pdfbox.pdmodel.PDPage|java.awt.print.Printable|store||java.awt.print.Printable[] a = new java.awt.print.Printable[1]; a[0] = new org.apache.pdfbox.pdmodel.PDPage(); System.out.println("stored");
pdfbox|org.apache.pdfbox.pdmodel.graphics.PDLineDashPattern|java.lang.Cloneable|instanceof||Object o = new org.apache.pdfbox.pdmodel.graphics.PDLineDashPattern(); System.out.println(o instanceof Cloneable);
tomcat-10|org.apache.catalina.loader.WebappLoader|java.beans.PropertyChangeListener|call||java.beans.PropertyChangeListener i = new org.apache.catalina.loader.WebappLoader(); i.propertyChange(new java.beans.PropertyChangeEvent("app", "a", null, null)); System.out.println("called");
END
}

# run PAIR SIDE NUMBER: the last line that the client prints, or the first of its error, without what a machine adds to it
run() {
    local folder=$inputs/$1 said
    said=$(java -XX:TieredStopAtLevel=1 -XX:+UseSerialGC -Djava.awt.headless=true -cp "$made/$1:$folder/$2:$folder/with" "app.Client$3" 2>&1 || true)
    { printf '%s\n' "$said" | grep '^Exception in thread "main"' || printf '%s\n' "$said" | tail -n 1; } | head -n 1 |
        sed 's/^Exception in thread "main" //; s/java\.\(lang\.[A-Za-z]*\(Error\|Exception\)\)/\1/; s/^lang\.//; s/ (.*//'
}

number=0
clients >"$made/clients"
while IFS='|' read -r pair _ _ _ own statements; do
    number=$((number + 1))
    mkdir -p "$made/sources/$pair"
    printf 'package app;\n\npublic class Client%s {\n    %s\n\n    public static void main(String[] words) throws Exception {\n        %s\n    }\n}\n' \
        "$number" "$own" "$statements" >"$made/sources/$pair/Client$number.java"
done <"$made/clients"
for pair in "$made/sources"/*; do
    name=${pair##*/}
    javac -J-XX:TieredStopAtLevel=1 -nowarn -proc:none -d "$made/$name" -cp "$inputs/$name/old:$inputs/$name/with" "$pair"/*.java
done
printf '| pair | line | act | with the old release | with the new one |\n|---|---|---|---|---|\n'
number=0
while IFS='|' read -r pair class interface act _; do
    number=$((number + 1))
    printf '| %s | `dropped %s %s` | %s | %s | `%s` |\n' "$pair" "${class//.//}" "${interface//.//}" "$act" "$(run "$pair" old "$number")" "$(run "$pair" new "$number")"
done <"$made/clients"
