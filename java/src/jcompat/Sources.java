package jcompat;

import java.io.IOException;
import java.net.URI;
import java.net.URISyntaxException;
import java.nio.charset.StandardCharsets;
import java.nio.file.Files;
import java.nio.file.Path;
import java.nio.file.Paths;
import java.util.ArrayList;
import java.util.HashMap;
import java.util.LinkedHashMap;
import java.util.List;
import java.util.Map;
import java.util.regex.Pattern;

/** The sources of the new release, in folders or jars, and where in them what a line speaks of stands. */
final class Sources {
    private static final int MOST_BYTES = 1 << 24;

    /** A file, as people name it and as an address, and a line in it, from 1 on. */
    static final class Place {
        final String file;
        final String address;
        final int line;

        private Place(String file, String address, int line) {
            this.file = file;
            this.address = address;
            this.line = line;
        }

        Map<String, Object> map() {
            Map<String, Object> map = new LinkedHashMap<>();
            map.put("file", file);
            map.put("line", line);
            return map;
        }
    }

    private final Map<Path, List<String>> paths = new LinkedHashMap<>();
    private final Map<String, String[]> read = new HashMap<>();

    /** A Stop where one can't be read. */
    Sources(List<Path> roots) throws IOException, Stop {
        for (Path root : roots) {
            try (Source source = Source.open(root)) {
                paths.put(root, new ArrayList<>(source.paths));
            }
        }
    }

    /** Where the member of a line stands in the new release, or else its class; null where no source has it. */
    Place of(Line line, Comparison comparison) throws IOException {
        return of(line.type, line.kind().equals("dropped") || line.rule.equals("H4") ? "-" : line.member, comparison);
    }

    /** The same of a class, and of a member unless it is a hyphen. */
    Place of(String type, String member, Comparison comparison) throws IOException {
        if (paths.isEmpty()) {
            return null;
        }
        Declaration declared = member.equals("-") || !comparison.newRelease.has(type) ? null : comparison.newRelease.declaration(type, member);
        if (declared != null && comparison.newRelease.has(declared.file.name)) {
            return place(declared.file, declared.attributes().firstLine());
        }
        Classes release = comparison.newRelease.has(type) ? comparison.newRelease : comparison.oldRelease;
        return release.has(type) && release.find(type) != null ? place(release.find(type), 0) : null;
    }

    /** The line, or if that is 0 the one that declares the class, or else the first. */
    private Place place(ClassFile file, int line) throws IOException {
        for (String path : candidates(file)) {
            for (Path root : paths.keySet()) {
                if (paths.get(root).contains(path)) {
                    return place(root, path, line > 0 ? line : declaring(text(root, path), file.name));
                }
            }
        }
        return null;
    }

    /** By the name of the source that the class file has, or else by that of the class. */
    private static List<String> candidates(ClassFile file) {
        String folder = file.name.substring(0, file.name.lastIndexOf('/') + 1);
        String top = file.name.substring(folder.length()).replaceFirst("(?<=.)\\$.*", "");
        List<String> candidates = new ArrayList<>();
        if (file.attributes().source() != null) {
            candidates.add(folder + file.attributes().source());
        }
        candidates.add(folder + top + ".java");
        candidates.add(folder + top + ".kt");
        return candidates;
    }

    private static Place place(Path root, String path, int line) {
        if (!Files.isDirectory(root)) {
            return new Place(root + "!/" + path, "jar:" + root.toUri() + "!/" + encoded(path), line);
        }
        Path here = Paths.get("").toAbsolutePath();
        Path file = root.resolve(path);
        Path shown = file.isAbsolute() && file.startsWith(here) ? here.relativize(file) : file.normalize();
        return new Place(shown.toString(), shown.isAbsolute() ? shown.toUri().toString() : encoded(shown.toString()), line);
    }

    private static String encoded(String path) {
        try {
            // without the dot a colon in the first name would end a scheme
            return new URI(null, null, "./" + path, null).getRawPath().substring(2);
        } catch (URISyntaxException none) {
            throw new IllegalArgumentException(path, none);
        }
    }

    private String[] text(Path root, String path) throws IOException {
        String key = root + "!/" + path;
        if (!read.containsKey(key)) {
            try (Source source = Source.open(root)) {
                read.put(key, new String(source.bytes(path, MOST_BYTES), StandardCharsets.UTF_8).split("\r?\n", -1));
            } catch (Stop failure) {
                throw new IOException(failure.getMessage(), failure);
            }
        }
        return read.get(key);
    }

    /** The first line that has a declaration of the class; comments are passed over as far as they begin their lines. */
    private static int declaring(String[] text, String type) {
        String simple = Names.simple(type);
        Pattern declaration = Pattern.compile("\\b(class|interface|enum|record|object)\\s+" + Pattern.quote(simple.substring(simple.lastIndexOf('.') + 1)) + "\\b");
        for (int i = 0; i < text.length; i++) {
            if (!text[i].trim().matches("(?s)(\\*|//|/\\*).*") && declaration.matcher(text[i]).find()) {
                return i + 1;
            }
        }
        return 1;
    }
}
