#!/usr/bin/env bash
# Runs clients of lines on calls, of the pairs that have them:  bench/called.sh INPUTS
#
# INPUTS is a folder that bench/inputs.sh has made. Each client is compiled against the old release, and the machine whose java is on the path runs it with
# both. Where the library calls what the client has, that call stands in a class `Library` of its own, which is compiled against the new release and is there
# with that alone. What is printed is a table in Markdown: the line of `check --calls`, and what the client prints with each release, or the error that it
# ends with. Run it by hand.
set -eu
inputs=$(readlink -f -- "${1:?usage: bench/called.sh INPUTS}")
made=$(mktemp -d)
trap 'rm -rf -- "$made"' EXIT

# A client: the pair, the line without the word `call`, classes of the client's own or nothing, statements, and the library's statements on the object `o` or nothing.
clients() {
    cat <<'END_OF_CLIENTS'
itext|com/lowagie/text/Anchor isNestable()Z access|static class U extends com.lowagie.text.Anchor { U() { super("text"); } boolean isNestable() { return true; } }|new com.lowagie.text.Chapter("title", 1).add(new U()); System.out.println("added");|
jaxrs|javax/ws/rs/core/Response close()V access|static class U extends javax.ws.rs.core.Response { void close() { } public Object getEntity() { return null; } public int getStatus() { return 200; } public javax.ws.rs.core.MultivaluedMap<String, Object> getMetadata() { return null; } }|Object o = new U(); if (o instanceof AutoCloseable) { ((AutoCloseable) o).close(); } System.out.println("kept open");|
jgrapht|org/jgrapht/generate/RingGraphGenerator generateGraph(Lorg/jgrapht/Graph;)V access|static class U extends org.jgrapht.generate.RingGraphGenerator<Object, Object> { U() { super(3); } void generateGraph(org.jgrapht.Graph<Object, Object> g) { System.out.println("generated"); } }|U u = new U(); u.generateGraph(null); called(u);|((org.jgrapht.generate.GraphGenerator<Object, Object, Object>) o).generateGraph(null);
lucene-4|org/apache/lucene/util/DocIdBitSet ramBytesUsed()J access|static class U extends org.apache.lucene.util.DocIdBitSet { U() { super(new java.util.BitSet()); } long ramBytesUsed() { System.out.println("told"); return 0; } }|U u = new U(); u.ramBytesUsed(); called(u);|((org.apache.lucene.util.Accountable) o).ramBytesUsed();
quartz|org/quartz/simpl/RAMJobStore clearAllSchedulingData()V access|static class U extends org.quartz.simpl.RAMJobStore { protected void clearAllSchedulingData() { System.out.println("cleared"); } }|U u = new U(); u.clearAllSchedulingData(); called(u);|((org.quartz.spi.JobStore) o).clearAllSchedulingData();
tomcat|org/apache/catalina/tribes/group/interceptors/EncryptInterceptor getReplayWindowTime()J access|static class U extends org.apache.catalina.tribes.group.interceptors.EncryptInterceptor { long getReplayWindowTime() { System.out.println("told"); return 0; } }|U u = new U(); u.getReplayWindowTime(); called(u);|((org.apache.catalina.tribes.group.interceptors.EncryptInterceptorMBean) o).getReplayWindowTime();
jaxrs|javax/ws/rs/core/Response$Status - constants||for (javax.ws.rs.core.Response.Status s : javax.ws.rs.core.Response.Status.values()) { int n = switch (s) { case OK, CREATED, ACCEPTED, NO_CONTENT, MOVED_PERMANENTLY, SEE_OTHER, NOT_MODIFIED, TEMPORARY_REDIRECT, BAD_REQUEST, UNAUTHORIZED -> 1; case FORBIDDEN, NOT_FOUND, NOT_ACCEPTABLE, CONFLICT, GONE, PRECONDITION_FAILED, UNSUPPORTED_MEDIA_TYPE, INTERNAL_SERVER_ERROR, SERVICE_UNAVAILABLE -> 2; }; } System.out.println("all met");|
lucene-8|org/apache/lucene/search/BooleanClause$Occur - constants||for (org.apache.lucene.search.BooleanClause.Occur o : org.apache.lucene.search.BooleanClause.Occur.values()) { int n = switch (o) { case MUST -> 1; case SHOULD -> 2; case MUST_NOT -> 3; }; } System.out.println("all met");|
tomcat-10|org/apache/tomcat/util/net/DispatchType - constants||for (org.apache.tomcat.util.net.DispatchType t : org.apache.tomcat.util.net.DispatchType.values()) { int n = switch (t) { case NON_BLOCKING_READ -> 1; case NON_BLOCKING_WRITE -> 2; }; } System.out.println("all met");|
END_OF_CLIENTS
}

# run PAIR SIDE NUMBER: the last line that the client prints, or the first of its error, without what a machine adds to it
run() {
    local folder=$inputs/$1 said
    said=$(java -XX:TieredStopAtLevel=1 -XX:+UseSerialGC -Djava.awt.headless=true -cp "$made/$1:$made/$1-$2:$folder/$2:$folder/with" "app.Client$3" 2>&1 || true)
    { printf '%s\n' "$said" | grep '^Exception in thread "main"' || printf '%s\n' "$said" | tail -n 1; } | head -n 1 |
        sed 's/^Exception in thread "main" //; s/java\.\(lang\.[A-Za-z]*\(Error\|Exception\)\)/\1/; s/^lang\.//; s/ (.*//'
}

number=0
clients >"$made/clients"
while IFS='|' read -r pair _ own statements library; do
    number=$((number + 1))
    mkdir -p "$made/sources/$pair" "$made/sources/$pair-new"
    cat >"$made/sources/$pair/Client$number.java" <<END_OF_CLASS
package app;

public class Client$number {
    $own

    static void called(Object o) throws Throwable {
        try {
            Class.forName("app.Library$number").getMethod("call", Object.class).invoke(null, o);
        } catch (ClassNotFoundException none) {
            // with the old release
        } catch (java.lang.reflect.InvocationTargetException ended) {
            throw ended.getCause();
        }
    }

    public static void main(String[] words) throws Throwable {
        $statements
    }
}
END_OF_CLASS
    [ -z "$library" ] || cat >"$made/sources/$pair-new/Library$number.java" <<END_OF_CLASS
package app;

public class Library$number {
    @SuppressWarnings("unchecked")
    public static void call(Object o) throws Exception {
        $library
    }
}
END_OF_CLASS
done <"$made/clients"
for name in $(cut -d'|' -f1 "$made/clients" | sort -u); do
    for side in old new; do
        folder=$name
        [ "$side" = old ] || folder=$name-new
        ! compgen -G "$made/sources/$folder/*.java" >/dev/null ||
            javac -J-XX:TieredStopAtLevel=1 -nowarn -proc:none -d "$made/$folder" -cp "$inputs/$name/$side:$inputs/$name/with" "$made/sources/$folder"/*.java
    done
done
printf '| pair | line | with the old release | with the new one |\n|---|---|---|---|\n'
number=0
while IFS='|' read -r pair line _; do
    number=$((number + 1))
    printf '| %s | `call %s` | %s | `%s` |\n' "$pair" "$line" "$(run "$pair" old "$number")" "$(run "$pair" new "$number")"
done <"$made/clients"
