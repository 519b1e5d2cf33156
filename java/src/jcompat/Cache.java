package jcompat;

import java.io.IOException;
import java.nio.file.Files;
import java.nio.file.Path;
import java.nio.file.Paths;
import java.util.ArrayList;
import java.util.Collections;
import java.util.List;

/** The cache, with a folder for all that a run unpacks, which goes when the run ends. */
final class Cache implements AutoCloseable {
    private static final long MOST_BYTES = 2L << 30;

    final Path folder;
    /** The folder of this run. */
    final Path run;
    private final List<Path> begun = Collections.synchronizedList(new ArrayList<>());
    private final Thread end;

    Cache(Path given) throws Stop {
        try {
            folder = given == null ? ofUser() : given;
            Files.createDirectories(folder);
            run = Files.createTempDirectory(place(folder), "jcompat.");
        } catch (IOException failure) {
            throw new Stop("can't write to " + (given == null ? ofUser() : given) + ": set XDG_CACHE_HOME to a folder that can be written");
        }
        end = new Thread(this::delete);
        Runtime.getRuntime().addShutdownHook(end);
    }

    /** In memory where there is enough of it: thousands of files are made and go again, which takes some file systems on disks seconds. */
    private static Path place(Path folder) throws IOException {
        Path memory = Paths.get("/dev/shm");
        boolean takes = System.getProperty("jcompat.memory", "true").equals("true") && Files.isWritable(memory) && Files.getFileStore(memory).getUsableSpace() > MOST_BYTES;
        return takes ? memory : folder;
    }

    private static Path ofUser() throws Stop {
        String named = System.getenv("XDG_CACHE_HOME");
        String home = System.getenv("HOME");
        if ((named == null || named.isEmpty()) && (home == null || home.isEmpty())) {
            throw new Stop("neither XDG_CACHE_HOME nor HOME is set");
        }
        return (named == null || named.isEmpty() ? Paths.get(home, ".cache") : Paths.get(named)).resolve("jcompat");
    }

    /** A folder from which something is moved into the cache whole. */
    Path toKeep() throws IOException {
        Path made = Files.createTempDirectory(folder, "run.");
        begun.add(made);
        return made;
    }

    Path work(String before) throws IOException {
        return Files.createTempDirectory(run, before);
    }

    private void delete() {
        Folders.delete(run);
        new ArrayList<>(begun).forEach(Folders::delete);
    }

    @Override
    public void close() {
        delete();
        try {
            Runtime.getRuntime().removeShutdownHook(end);
        } catch (IllegalStateException ending) {
            // the hook runs already
        }
    }
}
