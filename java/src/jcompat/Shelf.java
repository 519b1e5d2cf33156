package jcompat;

import java.io.IOException;
import java.nio.file.Path;
import java.util.LinkedHashMap;
import java.util.List;
import java.util.Map;

/** Jars and folders in which class files are looked for; each is opened once. */
final class Shelf implements AutoCloseable {
    /** What the program takes of a class file, and a byte, by which a longer one is refused. */
    private static final int MOST_BYTES = 4_194_304 + 1;

    private final Map<Path, Source> open = new LinkedHashMap<>();
    private final Host host;

    Shelf(Host host) {
        this.host = host;
    }

    /** Null where it can't be read, which is said. */
    private synchronized Source open(Path file) {
        if (!open.containsKey(file)) {
            Source source = null;
            try {
                source = Source.open(file);
            } catch (Stop unreadable) {
                host.say(unreadable.getMessage() + ": no class is taken from it");
            }
            open.put(file, source);
        }
        return open.get(file);
    }

    /** The first of the files that has a class file at the path; or null. */
    Path first(String path, List<Path> files) {
        for (Path file : files) {
            Source source = open(file);
            if (source != null && source.paths.contains(path)) {
                return file;
            }
        }
        return null;
    }

    /** The bytes of a class file that the file has. */
    byte[] bytes(String path, Path file) throws IOException {
        return open(file).bytes(path, MOST_BYTES);
    }

    @Override
    public void close() throws IOException {
        for (Source source : open.values()) {
            if (source != null) {
                source.close();
            }
        }
    }
}
