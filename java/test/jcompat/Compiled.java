package jcompat;

import static org.junit.Assert.assertEquals;

import java.net.URI;
import java.nio.charset.StandardCharsets;
import java.nio.file.FileSystems;
import java.nio.file.Files;
import java.nio.file.Path;
import java.util.ArrayList;
import java.util.Arrays;
import java.util.List;

import javax.tools.ToolProvider;

/** Makes releases for tests out of sources of the package p. */
final class Compiled {
    private Compiled() {
    }

    /** The classes of the sources, of which each begins with its name and a colon, over the Java at hand; they go to a new folder of this name, sources to one beside it. */
    static Classes release(Path folder, String... sources) throws Exception {
        return release(11, folder, sources);
    }

    /** The same of sources in the language of this Java. */
    static Classes release(int java, Path folder, String... sources) throws Exception {
        List<String> words = new ArrayList<>(Arrays.asList("--release", "" + java, "-d", Files.createDirectories(folder).toString()));
        Path beside = Files.createDirectories(folder.resolveSibling(folder.getFileName() + "-sources").resolve("p"));
        for (String each : sources) {
            int colon = each.indexOf(':');
            Path file = beside.resolve(each.substring(0, colon) + ".java");
            Files.write(file, ("package p;\n" + each.substring(colon + 1)).getBytes(StandardCharsets.UTF_8));
            words.add(file.toString());
        }
        assertEquals(0, ToolProvider.getSystemJavaCompiler().run(null, null, null, words.toArray(new String[0])));
        return new Classes(folder, Folders.classes(folder), FileSystems.getFileSystem(URI.create("jrt:/")).getPath("/modules/java.base"));
    }

    /** A comparison of which the program said this. */
    static Comparison comparison(Classes before, Classes now, String report) {
        Comparison comparison = new Comparison(false, before, now, new ArrayList<>(List.of("--warn", "--dropped")));
        comparison.report = new Report(report);
        comparison.folding = new Folding(comparison.report.all(), before);
        comparison.isWhole = true;
        comparison.additions = new Additions(before, now);
        return comparison;
    }
}
