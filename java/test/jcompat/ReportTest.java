package jcompat;

import static org.junit.Assert.assertEquals;

import java.nio.charset.StandardCharsets;
import java.nio.file.Files;
import java.nio.file.Path;
import java.util.Arrays;
import java.util.Collections;
import java.util.List;
import java.util.Set;
import java.util.stream.Collectors;

import org.junit.Rule;
import org.junit.Test;
import org.junit.rules.TemporaryFolder;

public class ReportTest {
    private static final String TEXT = "1 H7 p/A size:I putfield java/lang/Object IllegalAccessError\n2 H7 p/B size:I putfield java/lang/Object IllegalAccessError\n"
            + "3 Final p/A close()V override - IncompatibleClassChangeError\nnote constant p/A MOST:I\nnote unloadable old p/C NoClassDefFoundError\n"
            + "incompatible: 2 findings, 1 collisions, 2 notes\nwarning p/A draw()V lost\ndropped p/A p/I\ncall p/A draw()V reference\ncall p/A - constants\n";
    private static final String JSON = "{\"collisions\":[{\"class\":\"p/A\",\"error\":\"IncompatibleClassChangeError\",\"member\":\"close()V\",\"number\":3,"
            + "\"operation\":\"override\",\"rule\":\"Final\",\"seat\":null}],\"findings\":[{\"class\":\"p/A\",\"error\":\"IllegalAccessError\",\"member\":\"size:I\","
            + "\"number\":1,\"operation\":\"putfield\",\"rule\":\"H7\",\"seat\":\"java/lang/Object\"},{\"class\":\"p/B\",\"error\":\"IllegalAccessError\","
            + "\"member\":\"size:I\",\"number\":2,\"operation\":\"putfield\",\"rule\":\"H7\",\"seat\":\"java/lang/Object\"}],\"notes\":[{\"class\":\"p/A\","
            + "\"detail\":null,\"kind\":\"constant\",\"member\":\"MOST:I\",\"side\":null},{\"class\":\"p/C\",\"detail\":\"NoClassDefFoundError\","
            + "\"kind\":\"unloadable\",\"member\":null,\"side\":\"old\"}],\"verdict\":\"incompatible\"}\n{\"warnings\":[{\"class\":\"p/A\",\"kind\":\"lost\","
            + "\"member\":\"draw()V\"}]}\n{\"dropped\":[{\"class\":\"p/A\",\"interface\":\"p/I\"}]}\n{\"calls\":[{\"class\":\"p/A\",\"kind\":\"reference\",\"member\":\"draw()V\"},"
            + "{\"class\":\"p/A\",\"kind\":\"constants\",\"member\":null}]}\n";
    @Rule
    public final TemporaryFolder made = new TemporaryFolder();

    private static List<String> texts(Report report) {
        return report.all().stream().map(Line::toString).collect(Collectors.toList());
    }

    @Test
    public void readsLinesAndJsonAlike() {
        Report lines = new Report(TEXT);
        Report json = new Report(JSON);
        assertEquals(7, lines.all().size());
        assertEquals(texts(lines), texts(json));
        assertEquals("incompatible: 2 findings, 1 collisions, 2 notes", lines.verdict);
        assertEquals("incompatible", json.verdict);
        assertEquals(lines.unloadable("old").get(0).text, json.unloadable("old").get(0).text);
    }

    @Test
    public void foldsAndAccepts() throws Exception {
        Path release = made.newFolder("release").toPath();
        Files.createDirectories(release.resolve("p"));
        Files.write(release.resolve("p/A.class"), Jars.file("p/A", "java/lang/Object", 0, 52));
        Files.write(release.resolve("p/B.class"), Jars.file("p/B", "p/A", 0, 52));
        Report report = new Report(TEXT);
        Folding folding = new Folding(report.all(), new Classes(release, Arrays.asList("p/A.class", "p/B.class"), release));
        assertEquals(report.lines.get(0), folding.top(report.lines.get(1)));
        Path accepted = Files.write(made.getRoot().toPath().resolve("accepted"), "1 H7 p/A size:I putfield java/lang/Object IllegalAccessError (and through 1 subclass)  # counted once, and as it is printed\nH8 p/Gone *\nH7 B size\nFinal p/A close\n".getBytes(StandardCharsets.UTF_8));
        Jars jars = new Jars();
        Accepted entries = new Accepted(accepted, jars.host);
        Set<Line> taken = entries.of(report.all(), folding);
        assertEquals(2, taken.size());
        entries.sayUnused();
        assertEquals(Arrays.asList("line 2 of the accepted breaks accepts nothing: H8 p/Gone *",
                "line 3 of the accepted breaks accepts nothing: H7 B size; nearest is 2 H7 p/B size:I putfield java/lang/Object IllegalAccessError",
                "line 4 of the accepted breaks accepts nothing: Final p/A close; nearest is 3 Final p/A close()V override - IncompatibleClassChangeError, which it accepts with a * at its end"),
                jars.said);
        List<Line> left = report.all().stream().filter(line -> !taken.contains(line)).collect(Collectors.toList());
        assertEquals(0, Gates.status(Collections.emptyList(), left));
        assertEquals(1, Gates.status(Arrays.asList("--gate", "links,collisions"), left));
    }

    @Test
    public void namesAndPaths() {
        assertEquals("p/\\xc3\\x84", Names.ofPath("p/\u00c4.class"));
        assertEquals("p/\u00c4.class", Names.path("p/\\xc3\\x84"));
        assertEquals("A.B", Names.simple("p/A$B"));
        assertEquals("draw", Names.member("draw()V"));
        assertEquals("void draw(int[], String)", new Signature("draw([ILjava/lang/String;)V", false).declared("A"));
    }
}
