package jcompat;

import static org.junit.Assert.assertEquals;
import static org.junit.Assert.assertNull;
import static org.junit.Assert.assertTrue;
import static org.junit.Assert.fail;

import java.nio.charset.StandardCharsets;
import java.nio.file.Files;
import java.nio.file.Path;
import java.util.Arrays;
import java.util.Collections;
import java.util.List;

import org.junit.Rule;
import org.junit.Test;
import org.junit.rules.TemporaryFolder;

/** What is done with a program's answers: one in the place of jcompat says what a test asks. */
public class ProgramTest {
    @Rule
    public final TemporaryFolder made = new TemporaryFolder();
    private final Jars jars = new Jars();

    private Path program(String script) throws Exception {
        Path file = made.getRoot().toPath().resolve("jcompat");
        Files.write(file, ("#!/bin/sh\n" + script + "\n").getBytes(StandardCharsets.UTF_8));
        assertTrue(file.toFile().setExecutable(true));
        return file;
    }

    private Request request() throws Exception {
        Request request = new Request();
        for (String name : new String[] {"lib-1.0.0.jar", "lib-1.1.0.jar"}) {
            request.releases.add(Jars.jar(made.getRoot().toPath().resolve(name), "p/A.class", Jars.file("p/A", "java/lang/Object", 0, name.contains("1.1") ? 61 : 52)));
        }
        request.cache = made.getRoot().toPath().resolve("cache");
        request.needed = true;
        return request;
    }

    private List<String> versions(Request request) throws Exception {
        Path asks = program("shift 7\n[ \"$2\" \\< \"$4\" ] || { echo \"jcompat: usage: versions $2 $4\" >&2; exit 2; }\nexit 4");
        return new Versions(Program.find(asks, null), request, jars.host).options();
    }

    @Test
    public void versionsAreThoseOfTheNames() throws Exception {
        assertEquals(Arrays.asList("--from", "1.0.0", "--to", "1.1.0"), versions(request()));
        assertEquals(Collections.emptyList(), jars.said);
    }

    @Test
    public void swappedReleasesAreAskedAbout() throws Exception {
        Request request = request();
        Collections.reverse(request.releases);
        assertEquals(Collections.emptyList(), versions(request));
        assertEquals(Collections.singletonList("1.0.0 isn't later than 1.1.0: are the old and the new release swapped?"), jars.said);
    }

    @Test
    public void refusalsHaveAdvice() throws Exception {
        String[][] rows = {
            {"3", "jcompat: new: p/A.class: BadMagic at 0", "p/A.class of the new release isn't a class file, whatever its name: leave it out by --without 'p/A.class'"},
            {"3", "jcompat: old: q/B.class: misplaced p/B", "q/B.class of the old release stands elsewhere than its name: leave such files out, as by --without 'q/*'"},
            {"3", "jcompat: new: module-info.class: BadTag at 12", "the module's file of the new release can't be read: --no-modular compares without it"},
            {"3", "jcompat: old: p/A.class: BadTag at 12",
                "p/A.class of the old release is damaged, or was written by a tool with a fault of its own: compile it again, or leave it out by --without 'p/A.class'"},
            {"6", "jcompat: out of memory", "there isn't enough memory"},
            {"7", "jcompat: limit warnings", "leave warnings out by --no-warn"},
            {"7", "jcompat: old: limit files", "name fewer libraries, or leave class files out by --without"},
        };
        for (String[] row : rows) {
            Request request = request();
            request.program = program("case $* in *--from*) echo '" + row[1] + "' >&2; exit " + row[0] + " ;; esac\nexit 4");
            request.from = "1.0.0";
            request.to = "1.1.0";
            try {
                new Check(request, jars.host).run();
                fail(row[1]);
            } catch (Stop stop) {
                assertEquals(Integer.parseInt(row[0]), stop.status);
                assertEquals(row[2], stop.getMessage());
            }
        }
    }

    @Test
    public void anAnswerBecomesADocument() throws Exception {
        Request request = request();
        request.program = program("echo '1 H1 p/A - class - NoClassDefFoundError'\necho 'note unloadable old p/A NoClassDefFoundError'\n"
                + "echo 'incompatible: 1 findings, 0 collisions, 1 notes'\necho 'warning p/A draw()V lost'\nexit 1");
        request.whole = true;
        request.java = 11;
        Check check = new Check(request, jars.host);
        assertNull(check.document());
        assertEquals(Status.BREAKS, check.run());
        DocumentText document = DocumentText.of(check.document());
        assertEquals(1, document.comparisons().size());
        assertEquals("incompatible: 1 findings, 0 collisions, 1 notes", document.reports().get(0).verdict);
        assertEquals(2, document.reports().get(0).all().size());
        assertEquals(Collections.singletonList("needs Java 17, the old release ran on 8: clients on 8 to 16 get UnsupportedClassVersionError"), document.needs());
        assertTrue(jars.said.contains("the new release needs Java 17, and --java is 11"));
        assertTrue(Json.read(check.document()) instanceof java.util.Map);
    }

    @Test
    public void whatIsMissingIsNamed() throws Exception {
        Path release = made.newFolder("release").toPath();
        Files.createDirectories(release.resolve("p"));
        Files.write(release.resolve("p/A.class"), Jars.file("p/A", "q/Gone", 0, 52));
        Classes classes = new Classes(release, Collections.singletonList("p/A.class"), release);
        Report report = new Report("note unloadable old p/A NoClassDefFoundError\ncompatible: 0 findings, 0 collisions, 1 notes\n");
        new Uncompared(jars.host, Collections.emptyList()).sayOld("the old release", report, classes);
        assertEquals(Arrays.asList("1 of 1 classes of the old release weren't compared, since they don't load here. What is missing, and for how many of them:",
                "       1  q/Gone"), jars.said);
    }
}
