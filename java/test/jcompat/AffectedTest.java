package jcompat;

import static org.junit.Assert.assertEquals;
import static org.junit.Assert.assertFalse;
import static org.junit.Assert.assertTrue;
import static org.junit.Assert.fail;

import java.io.ByteArrayOutputStream;
import java.io.PrintStream;
import java.nio.charset.StandardCharsets;
import java.nio.file.Files;
import java.nio.file.Path;
import java.util.ArrayList;
import java.util.Arrays;
import java.util.List;
import java.util.Map;

import javax.tools.ToolProvider;

import org.junit.Before;
import org.junit.Rule;
import org.junit.Test;
import org.junit.rules.TemporaryFolder;

/** What is done with clients, whose answers a program in the place of jcompat gives. */
public class AffectedTest {
    @Rule
    public final TemporaryFolder made = new TemporaryFolder();
    private final Jars jars = new Jars();
    private final ByteArrayOutputStream printed = new ByteArrayOutputStream();
    private AffectedRequest request;

    private Path path(String name) {
        return made.getRoot().toPath().resolve(name);
    }

    /** Compiles sources, each with its path before a colon, to the folder, over other folders. */
    private Path compile(String folder, List<Path> over, String... sources) throws Exception {
        StringBuilder classPath = new StringBuilder(".");
        over.forEach(each -> classPath.append(':').append(each));
        List<String> words = new ArrayList<>(Arrays.asList("--release", "11", "-proc:none", "-cp", classPath.toString(), "-d", Files.createDirectories(path(folder)).toString()));
        for (String each : sources) {
            int colon = each.indexOf(':');
            Path file = path(folder + "-sources").resolve(each.substring(0, colon) + ".java");
            Files.createDirectories(file.getParent());
            Files.write(file, each.substring(colon + 1).getBytes(StandardCharsets.UTF_8));
            words.add(file.toString());
        }
        assertEquals(0, ToolProvider.getSystemJavaCompiler().run(null, null, null, words.toArray(new String[0])));
        return path(folder);
    }

    private Path jar(String name, Path folder) throws Exception {
        List<Object> entries = new ArrayList<>();
        for (String each : Folders.classes(folder)) {
            entries.add(each);
            entries.add(Files.readAllBytes(folder.resolve(each)));
        }
        return Jars.jar(path(name), entries.toArray());
    }

    /** The release p, the library q, whose class B extends p.A and R nothing, and a client s of both. */
    @Before
    public void make() throws Exception {
        Path old = compile("old", List.of(), "p/A:package p; public class A { public void draw() { } public int size; }");
        Path library = compile("library", List.of(old), "q/B:package q; public class B extends p.A { }", "q/R:package q; public class R { }");
        Path client = compile("client", List.of(old, library), "s/Main:package s; public class Main extends q.B { void run(p.A a) { a.draw(); a.size = 1; new java.util.zip.CRC32(); } }");
        request = new AffectedRequest();
        request.oldRelease = jar("lib-1.0.jar", old);
        request.newRelease = jar("lib-1.1.jar", compile("new", List.of(), "p/A:package p; public class A { }"));
        request.clients.add(jar("client.jar", client));
        request.with.add(jar("library.jar", library));
        request.cache = path("cache");
        request.needed = true;
    }

    /** A program that lists what it is given in a file, and answers for each client by lines with its number in the place of N. */
    private void program(String lines) throws Exception {
        Path file = Files.write(path("jcompat"), ("#!/bin/sh\n[ \"$1\" = clients ] || exit 2\nlist=" + path("listed") + "\n(cd \"$3\" && find . -name '*.class' | sort | sed 's/^/platform /') >>$list\n"
                + "shift 7\nnumber=0\nfor client; do\n    number=$((number + 1))\n    (cd \"$client\" && find . -name '*.class' | sort | sed \"s/^/$number /\") >>$list\n"
                + "    sed \"s/N/$number/\" " + path("answer") + "\ndone\nexit 1\n").getBytes(StandardCharsets.UTF_8));
        Files.write(path("answer"), (lines + "\n").getBytes(StandardCharsets.UTF_8));
        assertTrue(file.toFile().setExecutable(true));
        request.program = file;
    }

    private Map<?, ?> run(int status) throws Exception {
        Affected affected = new Affected(request, new Host(new PrintStream(printed, true, "UTF-8"), jars.said::add));
        assertEquals(status, affected.run());
        return (Map<?, ?>) Json.read(affected.document());
    }

    private List<String> listed() throws Exception {
        return Files.readAllLines(path("listed"));
    }

    private static Map<?, ?> first(Map<?, ?> document) {
        return DocumentText.maps(document, "clients").get(0);
    }

    @Test
    public void whatIsLostIsToldOfTheClassesOfTheClient() throws Exception {
        program("client N item s/Main invokevirtual p/A draw()V p/A NoSuchMethodError\nclient N item q/B invokevirtual p/A draw()V q/B NoSuchMethodError\nclient N breaks: 2 classes, 5 outcomes, 0 errors before, 2 lost");
        request.page = path("page.html");
        Map<?, ?> client = first(run(Status.BREAKS));
        assertEquals("breaks", client.get("says"));
        assertEquals(1L, client.get("classes"));
        assertEquals(List.of("library.jar"), client.get("libraries"));
        assertEquals(List.of(), client.get("missing"));
        // the class itself, the method and the field
        assertEquals(3L, client.get("uses"));
        List<Map<?, ?>> lost = DocumentText.maps(client, "lost");
        assertEquals(1, lost.size());
        assertEquals("invokevirtual p/A draw()V p/A NoSuchMethodError", lost.get(0).get("text"));
        assertEquals("method void A.draw() is gone", lost.get(0).get("words"));
        assertEquals(List.of("s/Main"), lost.get(0).get("in"));
        assertEquals(List.of("item q/B invokevirtual p/A draw()V q/B NoSuchMethodError"), client.get("lost_by_libraries"));
        // what the client names of the library stands beside it, and what it names of the JDK is the platform
        List<String> listed = listed();
        assertTrue(listed.containsAll(List.of("1 ./q/B.class", "1 ./s/Main.class", "platform ./java/util/zip/CRC32.class")));
        assertFalse(listed.contains("1 ./q/R.class"));
        assertFalse(listed.contains("1 ./p/A.class"));
        String text = printed.toString("UTF-8");
        assertTrue(text, text.startsWith("affected: 1 clients, 1 broken, 0 not asked; 0 of 1 name nothing of the old release\n"));
        assertTrue(text, text.contains("    invokevirtual p/A draw()V p/A NoSuchMethodError, in s/Main\n        method void A.draw() is gone\n"));
        assertTrue(text, text.contains("\n   breaks        1      3      1         0        0  "));
        String page = Files.readString(request.page);
        assertTrue(page.contains("<h1 class=bad>1 client breaks of 1</h1>") && page.contains("invokevirtual p/A draw()V p/A NoSuchMethodError"));
    }

    @Test
    public void whoKeepsAllKeepsTheStatus() throws Exception {
        program("client N keeps: 2 classes, 5 outcomes, 0 errors before, 0 lost");
        assertEquals("keeps", first(run(Status.GOOD)).get("says"));
        request.with.clear();
        request.whole = true;
        Map<?, ?> document = run(Status.NOT_WHOLE);
        assertEquals(List.of("q/B"), first(document).get("missing"));
        assertTrue(jars.said.contains("       1  q/B"));
        assertTrue(printed.toString("UTF-8").contains("of 1 client not all is asked: classes are left out or missing, as the table says\n"));
        assertEquals(1L, ((Map<?, ?>) document.get("counts")).get("partly_asked"));
    }

    @Test
    public void whoNamesNothingOfTheReleaseIsNoClient() throws Exception {
        program("client N keeps: 1 classes, 1 outcomes, 0 errors before, 0 lost");
        request.clients.clear();
        request.clients.add(jar("stranger.jar", compile("stranger", List.of(), "t/T:package t; public class T { }")));
        // it names the library alone, above which the release stands
        request.clients.add(jar("below.jar", compile("below", List.of(path("library"), path("old")), "u/U:package u; public class U extends q.B { }")));
        Map<?, ?> document = run(Status.GOOD);
        assertEquals(List.of(path("stranger.jar").toString()), document.get("strangers"));
        assertEquals(path("below.jar").toString(), first(document).get("name"));
    }

    @Test
    public void whatNoClientMayHaveIsLeftOut() throws Exception {
        program("client N keeps: 1 classes, 1 outcomes, 0 errors before, 0 lost");
        Path mixed = compile("mixed", List.of(path("old")), "p/Near:package p; public class Near extends A { }", "s/S:package s; public class S extends p.A { }");
        Files.createDirectories(mixed.resolve("java/util"));
        Files.write(mixed.resolve("java/util/Own.class"), Jars.file("java/util/Own", "java/lang/Object", 0, 52));
        request.clients.set(0, mixed);
        Map<?, ?> client = first(run(Status.GOOD));
        assertEquals(Json.object("of_releases", 1L, "of_platform", 1L, "refused", List.of()), client.get("left_out"));
        assertEquals(1L, client.get("classes"));
        Path all = compile("all", List.of(path("old")), "p/Near:package p; public class Near extends A { }");
        request.clients.set(0, all);
        Map<?, ?> none = first(run(Status.NOT_WHOLE));
        assertEquals("not asked", none.get("says"));
    }

    @Test
    public void aFileThatIsRefusedIsLeftOut() throws Exception {
        program("client N keeps: 1 classes, 1 outcomes, 0 errors before, 0 lost");
        Path client = path("client");
        Files.write(client.resolve("s/Odd.class"), new byte[] {1, 2, 3});
        request.clients.set(0, client);
        Files.write(request.program, Files.readString(request.program).replace("    sed", "    [ ! -f $client/s/Odd.class ] || { echo \"client $number jcompat: client: s/Odd.class: BadMagic at 0\"; continue; }\n    sed")
                .getBytes(StandardCharsets.UTF_8));
        Map<?, ?> asked = first(run(Status.GOOD));
        assertEquals("keeps", asked.get("says"));
        assertEquals(List.of("jcompat: client: s/Odd.class: BadMagic at 0"), ((Map<?, ?>) asked.get("left_out")).get("refused"));
        assertTrue(jars.said.contains(client + ": left out: s/Odd.class: BadMagic at 0"));
        Files.write(path("answer"), "client N jcompat: client: limit files\n".getBytes(StandardCharsets.UTF_8));
        Files.delete(client.resolve("s/Odd.class"));
        Map<?, ?> refused = first(run(Status.NOT_WHOLE));
        assertEquals("jcompat: client: limit files", refused.get("why"));
    }

    @Test
    public void aRunWithoutAnAnswerEnds() throws Exception {
        program("");
        try {
            run(0);
            fail();
        } catch (Stop stop) {
            assertEquals(Stop.NOT_RUN, stop.status);
        }
        Files.write(request.program, "#!/bin/sh\necho 'jcompat: client 1: read fault' >&2\nexit 4\n".getBytes(StandardCharsets.UTF_8));
        try {
            run(0);
            fail();
        } catch (Stop stop) {
            assertEquals(4, stop.status);
        }
    }

    @Test
    public void aTreeTellsTheClassPath() throws Exception {
        program("client N keeps: 1 classes, 1 outcomes, 0 errors before, 0 lost");
        Path kept = path("repository/org/example/library/1.2/library-1.2.jar");
        Files.createDirectories(kept.getParent());
        Files.copy(path("library.jar"), kept);
        request.with.clear();
        request.repository = path("repository");
        request.clients.set(0, jar("app-3.0.jar", path("client")));
        Path tree = Files.write(path("tree"), ("[INFO] --- maven-dependency-plugin:2.8:tree (default-cli) @ app ---\n[INFO] org.example:app:jar:3.0\n[INFO] +- org.example:library:jar:1.2:compile\n"
                + "[INFO] |  \\- org.example:gone:jar:sources:1.0:runtime (optional)\n[INFO] \\- junit:junit:jar:4.13:test\n").getBytes(StandardCharsets.UTF_8));
        request.trees.add(tree);
        Map<?, ?> client = first(run(Status.GOOD));
        assertEquals("tree", client.get("class_path"));
        assertEquals(List.of("library-1.2.jar"), client.get("libraries"));
        assertEquals(List.of("org.example:gone:1.0"), client.get("lacking"));
    }

    @Test
    public void treesAreRead() {
        List<MavenTree> trees = MavenTree.read("org.example:parent:pom:1\nBuilding app 1.0\norg.example:app:war:1.0-SNAPSHOT\n+- a:b:jar:2:compile\n|  +- c:d:jar:tests:3:test\n\\- e:f:jar:linux:4:provided (scope not updated)\n");
        assertEquals(2, trees.size());
        assertEquals(2, trees.get(1).needs.size());
        assertEquals("f-4-linux.jar", trees.get(1).needs.get(1).fileName());
        assertEquals(path("m/a/b/2/b-2.jar"), trees.get(1).needs.get(0).in(path("m")));
        assertTrue(trees.get(1).isOf(path("app")));
        assertFalse(trees.get(1).isOf(path("app-2.jar")));
    }

    @Test
    public void whatPackagesDependOnIsFound() throws Exception {
        List<List<String>> depends = new ArrayList<>();
        DebianPackage.addAll("default-jre-headless (>= 2:1.8) | java8-runtime-headless, liba-java (>= 1.2),libb-java:any", depends);
        assertEquals(List.of(List.of("default-jre-headless", "java8-runtime-headless"), List.of("liba-java"), List.of("libb-java")), depends);
        DebianPackage.addAll(null, depends);
        assertEquals(3, depends.size());
    }
}
