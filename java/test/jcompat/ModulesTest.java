package jcompat;

import static org.junit.Assert.assertEquals;
import static org.junit.Assert.assertFalse;
import static org.junit.Assert.assertTrue;

import java.io.ByteArrayOutputStream;
import java.io.PrintStream;
import java.nio.charset.StandardCharsets;
import java.nio.file.Files;
import java.nio.file.Path;
import java.util.Arrays;
import java.util.Collections;

import javax.tools.ToolProvider;

import org.junit.Before;
import org.junit.Rule;
import org.junit.Test;
import org.junit.rules.TemporaryFolder;

/** A release that became a module: it is compared twice. One in the place of jcompat finds something as modules alone. */
public class ModulesTest {
    private static final String PROGRAM = "#!/bin/sh\ncase $* in\n*--modular*) echo '1 H1 p/A - class - IllegalAccessError' && echo 'incompatible: 1 findings, 0 collisions, 0 notes' && exit 1 ;;\n"
            + "esac\necho 'compatible: 0 findings, 0 collisions, 0 notes'\necho 'warning p/A draw()V lost'\n";
    @Rule
    public final TemporaryFolder made = new TemporaryFolder();
    private final Jars jars = new Jars();
    private final Request request = new Request();
    private final ByteArrayOutputStream printed = new ByteArrayOutputStream();

    private Path path(String name) {
        return made.getRoot().toPath().resolve(name);
    }

    private void compile(String folder, String... sources) throws Exception {
        Path source = Files.createDirectories(path(folder + "-source").resolve("p"));
        Files.write(source.resolve("A.java"), "package p; public class A { }".getBytes(StandardCharsets.UTF_8));
        Files.write(source.resolveSibling("module-info.java"), "module m { }".getBytes(StandardCharsets.UTF_8));
        String[] words = {"--release", "11", "-d", path(folder).toString(), source.resolve("A.java").toString(), source.resolveSibling("module-info.java").toString()};
        int count = sources.length == 0 ? words.length - 1 : words.length;
        assertEquals(0, ToolProvider.getSystemJavaCompiler().run(null, null, null, Arrays.copyOf(words, count)));
        request.releases.add(path(folder));
    }

    @Before
    public void makeReleases() throws Exception {
        compile("old");
        compile("new", "module");
        request.program = Files.write(path("jcompat"), PROGRAM.getBytes(StandardCharsets.UTF_8));
        assertTrue(request.program.toFile().setExecutable(true));
        request.cache = path("cache");
        request.needed = true;
        request.report = path("report");
        request.page = path("page.html");
    }

    private Check run(int status) throws Exception {
        Check check = new Check(request, new Host(new PrintStream(printed, true, "UTF-8"), jars.said::add));
        assertEquals(status, check.run());
        return check;
    }

    @Test
    public void bothVerdictsAreSaid() throws Exception {
        DocumentText document = DocumentText.of(run(Status.BREAKS).document());
        assertEquals(2, document.comparisons().size());
        assertEquals("on the class path:\ncompatible: 0 findings, 0 collisions, 0 notes\n1 warnings, 0 dropped interfaces, 0 lines on calls\nwarning p/A draw()V lost\n"
                + "    class A gives classes no method void draw() to run any more\n    class Y extends A { }, without a method draw of its own, and the library calls draw() on it\n"
                + "\nas modules:\nincompatible: 1 findings, 0 collisions, 0 notes\n0 warnings, 0 dropped interfaces, 0 lines on calls\n1 H1 p/A - class - IllegalAccessError\n"
                + "    class A is in a package that its module doesn't export\n    Object object = (A) other;\n", printed.toString("UTF-8"));
        assertTrue(Files.readString(path("report")).startsWith("compatible"));
        assertTrue(Files.readString(path("report.modules")).startsWith("1 H1"));
        String page = Files.readString(path("page.html"));
        assertTrue(page.contains("<h1 class=may>Links; 1 call may fail</h1>"));
        assertTrue(page.contains("As modules the new release is <strong>incompatible: 1 findings, 0 collisions, 0 notes</strong>"));
        assertTrue(page.contains("class A is in a package that its module doesn't export"));
    }

    @Test
    public void oneIsAskedFor() throws Exception {
        request.views = Request.Views.CLASS_PATH;
        assertEquals(1, DocumentText.of(run(Status.GOOD).document()).comparisons().size());
        assertFalse(printed.toString("UTF-8").contains("on the class path:"));
        assertEquals(Collections.emptyList(), jars.said);
        request.views = Request.Views.MODULES;
        assertEquals("as modules", DocumentText.of(run(Status.BREAKS).document()).comparisons().get(0).get("clients"));
    }

    @Test
    public void statusesOfBothAreJoined() throws Exception {
        request.strict = true;
        Path accepted = path("accepted");
        Files.write(accepted, Arrays.asList("H1 p/A *"));
        request.accepted = accepted;
        run(Status.NOT_STRICT);
        assertTrue(jars.said.contains("accepted: 1"));
        assertTrue(jars.said.contains("nothing is accepted"));
        assertTrue(jars.said.contains("compatible but for 1 accepted (incompatible: 1 findings, 0 collisions, 0 notes)"));
        assertTrue(printed.toString("UTF-8").contains("as modules:\ncompatible but for 1 accepted (incompatible: 1 findings, 0 collisions, 0 notes)\n"));
    }
}
