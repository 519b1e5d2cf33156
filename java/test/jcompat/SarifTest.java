package jcompat;

import static org.junit.Assert.assertEquals;
import static org.junit.Assert.assertNull;
import static org.junit.Assert.assertTrue;

import java.nio.charset.StandardCharsets;
import java.nio.file.Files;
import java.nio.file.Path;
import java.util.Arrays;
import java.util.List;
import java.util.Map;

import org.junit.Rule;
import org.junit.Test;
import org.junit.rules.TemporaryFolder;

/** Lines at their places in sources, and the log that has them. */
public class SarifTest {
    private static final String SOURCE = "\n/** class A is a sample. */\npublic class A {\n    int size;\n\n    void draw() {\n        size = 1;\n    }\n\n    public static class B {\n    }\n}\n";
    @Rule
    public final TemporaryFolder made = new TemporaryFolder();
    private final Jars jars = new Jars();

    private Path path(String name) {
        return made.getRoot().toPath().resolve(name);
    }

    private static Line line(String text) {
        return new Report(text + "\nincompatible: 1 findings, 0 collisions, 0 notes").all().get(0);
    }

    @Test
    public void linesStandWhereTheirMembersDo() throws Exception {
        Classes one = Compiled.release(path("one"), "A:" + SOURCE);
        Comparison comparison = Compiled.comparison(one, one, "compatible: 0 findings, 0 collisions, 0 notes");
        Sources folder = new Sources(List.of(path("one-sources")));
        Sources.Place place = folder.of(line("1 H8 p/A draw()V invokevirtual java/lang/Object IllegalAccessError"), comparison);
        assertEquals(8, place.line);
        assertEquals(path("one-sources/p/A.java").toString(), place.file);
        assertEquals(path("one-sources/p/A.java").toUri().toString(), place.address);
        assertEquals(4, folder.of(line("1 H7 p/A size:I getfield java/lang/Object IllegalAccessError"), comparison).line);
        assertEquals(4, folder.of(line("1 H8 p/A gone()V invokevirtual java/lang/Object NoSuchMethodError"), comparison).line);
        assertEquals(11, folder.of(line("1 H1 p/A$B - class - IllegalAccessError"), comparison).line);
        assertNull(folder.of(line("1 H1 q/C - class - NoClassDefFoundError"), comparison));
        Path jar = Jars.jar(path("s.jar"), "p/A.java", ("package p;\n" + SOURCE).getBytes(StandardCharsets.UTF_8));
        assertTrue(new Sources(List.of(jar)).of("p/A", "-", comparison).address.matches("jar:file:///.*/s.jar!/p/A.java"));
        assertNull(new Sources(List.of()).of("p/A", "-", comparison));
    }

    @Test
    public void theLogHasCausesAtTheirPlaces() throws Exception {
        Request request = new Request();
        for (String name : new String[] {"old", "new"}) {
            Compiled.release(path(name), "A:" + SOURCE);
            request.releases.add(path(name));
        }
        Path program = Files.write(path("jcompat"), ("#!/bin/sh\necho '1 H8 p/A draw()V invokevirtual java/lang/Object IllegalAccessError'\necho 'note constant p/A size:I'\n"
                + "echo 'incompatible: 1 findings, 0 collisions, 1 notes'\necho 'warning p/A draw()V lost'\nexit 1\n").getBytes(StandardCharsets.UTF_8));
        assertTrue(program.toFile().setExecutable(true));
        request.program = program;
        request.cache = path("cache");
        request.needed = true;
        request.sarif = path("log.sarif");
        request.sources.add(path("new-sources"));
        request.accepted = Files.write(path("accepted"), Arrays.asList("H8 *"));
        Check check = new Check(request, jars.host);
        assertEquals(Status.GOOD, check.run());
        Map<?, ?> log = (Map<?, ?>) Json.read(Files.readString(request.sarif));
        assertEquals("2.1.0", log.get("version"));
        Map<?, ?> run = DocumentText.maps(log, "runs").get(0);
        List<Map<?, ?>> results = DocumentText.maps(run, "results");
        assertEquals(2, results.size());
        Map<?, ?> first = results.get(0);
        assertEquals(Arrays.asList("H8", 0L, "error"), Arrays.asList(first.get("ruleId"), first.get("ruleIndex"), first.get("level")));
        assertEquals("accepted", DocumentText.maps(first, "suppressions").get(0).get("status"));
        Map<?, ?> physical = (Map<?, ?>) DocumentText.maps(first, "locations").get(0).get("physicalLocation");
        assertEquals(8L, ((Map<?, ?>) physical.get("region")).get("startLine"));
        assertEquals("note", results.get(1).get("level"));
        Map<?, ?> driver = (Map<?, ?>) ((Map<?, ?>) run.get("tool")).get("driver");
        assertEquals("a method can't be called as before", ((Map<?, ?>) DocumentText.maps(driver, "rules").get(0).get("shortDescription")).get("text"));
        DocumentText document = DocumentText.of(check.document());
        Map<?, ?> line = DocumentText.maps(document.comparisons().get(0), "lines").get(0);
        assertEquals(8L, ((Map<?, ?>) line.get("source")).get("line"));
        assertEquals("compatible but for 1 accepted (incompatible: 1 findings, 0 collisions, 1 notes); 1 warnings, 0 dropped interfaces, 0 lines on calls; 1 warning only says again what a finding says",
                check.summary());
    }

    @Test
    public void sumsAreThoseOfSha256sum() throws Exception {
        assertEquals("ba7816bf8f01cfea414140de5dae2223b00361a396177a9cb410ff61f20015ad", Digest.of("abc".getBytes(StandardCharsets.US_ASCII)));
        Path folder = Files.createDirectories(path("sums/p")).getParent();
        Files.write(folder.resolve("p/A.class"), "abc".getBytes(StandardCharsets.US_ASCII));
        Files.write(folder.resolve("other"), new byte[0]);
        assertEquals(Digest.of("ba7816bf8f01cfea414140de5dae2223b00361a396177a9cb410ff61f20015ad  p/A.class\n".getBytes(StandardCharsets.US_ASCII)), Digest.of(folder));
    }
}
