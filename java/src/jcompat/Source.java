package jcompat;

import java.io.IOException;
import java.io.InputStream;
import java.nio.file.FileVisitOption;
import java.nio.file.Files;
import java.nio.file.Path;
import java.util.LinkedHashSet;
import java.util.Set;
import java.util.stream.Collectors;
import java.util.stream.Stream;
import java.util.zip.CRC32;
import java.util.zip.ZipEntry;
import java.util.zip.ZipException;
import java.util.zip.ZipFile;

/** The files of a jar, or of a folder. Of an entry that a jar has twice, the one counts that a virtual machine takes. */
abstract class Source implements AutoCloseable {
    final Set<String> paths = new LinkedHashSet<>();

    static Source open(Path file) throws Stop {
        if (!Files.exists(file)) {
            throw new Stop("there is no file " + file);
        }
        if (!Files.isReadable(file)) {
            throw new Stop(file + " can't be read");
        }
        try {
            return Files.isDirectory(file) ? new Folder(file) : new Jar(file);
        } catch (ZipException | IllegalArgumentException failure) {
            boolean isSecret = String.valueOf(failure.getMessage()).contains("encrypted");
            throw new Stop(file + (isSecret ? " has files with a password, so it can't be unpacked" : " isn't a jar"));
        } catch (IOException | java.io.UncheckedIOException failure) {
            throw new Stop(file + " can't be read whole");
        }
    }

    /** The first bytes of a file, as many as that at most. */
    abstract byte[] bytes(String path, int most) throws IOException;

    @Override
    public abstract void close() throws IOException;

    /** A path that leads out of the folder to which it would be unpacked has no class at the place of its name. */
    private static boolean isInside(String path) {
        return !path.startsWith("/") && !path.endsWith("/") && !path.equals("..") && !path.startsWith("../") && !path.contains("/../")
                && !path.contains("//") && !path.contains("/./") && !path.startsWith("./") && path.indexOf('\0') < 0;
    }

    private static final class Jar extends Source {
        private final ZipFile zip;

        Jar(Path file) throws IOException {
            zip = new ZipFile(file.toFile());
            zip.stream().map(entry -> entry.getName()).filter(Source::isInside).forEach(paths::add);
        }

        @Override
        byte[] bytes(String path, int most) throws IOException {
            ZipEntry entry = zip.getEntry(path);
            try (InputStream in = zip.getInputStream(entry)) {
                byte[] bytes = in.readNBytes(most);
                CRC32 sum = new CRC32();
                sum.update(bytes);
                if (bytes.length < most && entry.getCrc() != -1 && entry.getCrc() != sum.getValue()) {
                    throw new IOException(path + " has other bytes than its checksum says");
                }
                return bytes;
            }
        }

        @Override
        public void close() throws IOException {
            zip.close();
        }
    }

    private static final class Folder extends Source {
        private final Path folder;

        Folder(Path folder) throws IOException {
            this.folder = folder;
            try (Stream<Path> all = Files.walk(folder, FileVisitOption.FOLLOW_LINKS)) {
                paths.addAll(all.filter(Files::isRegularFile).map(file -> folder.relativize(file).toString()).sorted().collect(Collectors.toList()));
            }
        }

        @Override
        byte[] bytes(String path, int most) throws IOException {
            try (InputStream in = Files.newInputStream(folder.resolve(path))) {
                return in.readNBytes(most);
            }
        }

        @Override
        public void close() {
        }
    }
}
