package jcompat;

import java.io.IOException;
import java.nio.file.Files;
import java.nio.file.Path;
import java.util.Arrays;
import java.util.List;
import java.util.stream.Collectors;

/** What was meant, most likely, where a release is no release. */
final class Hints {
    private Hints() {
    }

    /** What else a release without class files has; nothing where that tells nothing. */
    static String ofNothing(Path release) throws IOException, Stop {
        try (Source source = Source.open(release)) {
            if (source.paths.contains("classes.jar")) {
                return "; its classes are in classes.jar, as those of an archive of Android: unpack that, and compare it";
            }
            List<String> jars = source.paths.stream().filter(path -> path.endsWith(".jar")).collect(Collectors.toList());
            if (!jars.isEmpty()) {
                return "; there " + (jars.size() == 1 ? "is a jar" : "are " + jars.size() + " jars") + " in it, as " + jars.get(0) + ": compare jar by jar";
            }
            String text = source.paths.stream().filter(path -> path.matches(".*\\.(java|kt|scala|groovy)")).findFirst().orElse(null);
            return text == null ? "" : "; it has sources, as " + text + ": compare what they are compiled to";
        }
    }

    /** Whether two releases are one file, or files with the same bytes. */
    static boolean areSame(Path one, Path other) throws IOException {
        return Files.isSameFile(one, other) || Files.isRegularFile(one) && Files.isRegularFile(other) && haveSameBytes(one, other);
    }

    private static boolean haveSameBytes(Path one, Path other) throws IOException {
        return Files.size(one) == Files.size(other) && Arrays.equals(Files.readAllBytes(one), Files.readAllBytes(other));
    }
}
