package jcompat;

import java.io.IOException;
import java.nio.charset.StandardCharsets;
import java.nio.file.Files;
import java.nio.file.Path;
import java.security.MessageDigest;
import java.security.NoSuchAlgorithmException;

/** SHA-256, in hexadecimal digits. */
final class Digest {
    private Digest() {
    }

    static String of(byte[] bytes) {
        try {
            StringBuilder sum = new StringBuilder();
            for (byte each : MessageDigest.getInstance("SHA-256").digest(bytes)) {
                sum.append(String.format("%02x", each));
            }
            return sum.toString();
        } catch (NoSuchAlgorithmException impossible) {
            throw new IllegalStateException(impossible);
        }
    }

    /** Of a file; of a folder, that of the lines which sha256sum prints of its class files, in order of their paths. */
    static String of(Path file) throws IOException {
        if (!Files.isDirectory(file)) {
            return of(Files.readAllBytes(file));
        }
        StringBuilder lines = new StringBuilder();
        try (Source folder = Source.open(file)) {
            for (String path : folder.paths) {
                if (path.endsWith(Names.CLASS)) {
                    lines.append(of(folder.bytes(path, Integer.MAX_VALUE - 8))).append("  ").append(path).append('\n');
                }
            }
        } catch (Stop failure) {
            throw new IOException(failure.getMessage(), failure);
        }
        return of(lines.toString().getBytes(StandardCharsets.UTF_8));
    }
}
