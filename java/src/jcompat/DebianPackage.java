package jcompat;

import java.io.IOException;
import java.nio.charset.StandardCharsets;
import java.nio.file.Files;
import java.nio.file.LinkOption;
import java.nio.file.Path;
import java.util.ArrayList;
import java.util.Arrays;
import java.util.LinkedHashMap;
import java.util.List;
import java.util.Map;
import java.util.stream.Collectors;
import java.util.stream.Stream;

/** A Debian package: what its control file says, and the jars in it. */
final class DebianPackage {
    final Path file;
    final String name;
    final String version;
    /** What it depends on: of each thing the names of packages of which one is enough, without versions. */
    final List<List<String>> depends = new ArrayList<>();
    /** The names for which it stands beside its own. */
    final List<String> provides = new ArrayList<>();
    /** Its jars, unpacked, in order of their paths; links to them don't count. */
    final List<Path> jars = new ArrayList<>();

    /** Unpacks a package to a folder that is there. */
    DebianPackage(Path file, Path to) throws IOException, Stop {
        this.file = file;
        unpack(file, to);
        try (Stream<Path> all = Files.walk(to)) {
            all.filter(each -> each.toString().endsWith(".jar") && Files.isRegularFile(each, LinkOption.NOFOLLOW_LINKS)).sorted().forEach(jars::add);
        }
        Map<String, String> fields = fields(file);
        name = fields.getOrDefault("Package", file.getFileName().toString());
        version = fields.getOrDefault("Version", "");
        addAll(fields.get("Pre-Depends"), depends);
        addAll(fields.get("Depends"), depends);
        List<List<String>> provided = new ArrayList<>();
        addAll(fields.get("Provides"), provided);
        provided.forEach(provides::addAll);
    }

    static boolean is(Path file) {
        return file.toString().endsWith(".deb");
    }

    static void unpack(Path file, Path to) throws IOException, Stop {
        run(file, "dpkg-deb", "-x", file.toString(), to.toString());
    }

    private static Map<String, String> fields(Path file) throws IOException, Stop {
        Map<String, String> fields = new LinkedHashMap<>();
        String last = "";
        for (String line : run(file, "dpkg-deb", "-f", file.toString(), "Package", "Version", "Pre-Depends", "Depends", "Provides").split("\n")) {
            int colon = line.indexOf(':');
            if (line.startsWith(" ")) {
                fields.merge(last, line, String::concat);
            } else if (colon > 0) {
                last = line.substring(0, colon);
                fields.put(last, line.substring(colon + 1).trim());
            }
        }
        return fields;
    }

    /** Of a field as <code>default-jre | java8-runtime, libfoo-java (>= 1.2), libbar-java:any</code>. */
    static void addAll(String field, List<List<String>> to) {
        for (String each : field == null || field.isEmpty() ? new String[0] : field.split(",")) {
            to.add(Arrays.stream(each.split("\\|")).map(name -> name.trim().replaceFirst("[ (:\\[].*", "")).filter(name -> !name.isEmpty()).collect(Collectors.toList()));
        }
    }

    private static String run(Path file, String... command) throws IOException, Stop {
        Process process;
        try {
            process = new ProcessBuilder(command).redirectError(ProcessBuilder.Redirect.INHERIT).start();
        } catch (IOException none) {
            throw new Stop("dpkg-deb, which unpacks packages, isn't on the path");
        }
        try {
            String said = new String(process.getInputStream().readAllBytes(), StandardCharsets.UTF_8);
            if (process.waitFor() != 0) {
                throw new Stop(file + " isn't a Debian package");
            }
            return said;
        } catch (InterruptedException interrupted) {
            Thread.currentThread().interrupt();
            throw new Stop("interrupted");
        }
    }
}
