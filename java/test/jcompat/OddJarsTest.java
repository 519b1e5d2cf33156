package jcompat;

import static org.junit.Assert.assertEquals;
import static org.junit.Assert.assertFalse;
import static org.junit.Assert.assertTrue;
import static org.junit.Assert.fail;

import java.io.IOException;
import java.nio.charset.StandardCharsets;
import java.nio.file.Files;
import java.nio.file.Path;
import java.util.Arrays;
import java.util.Collections;

import org.junit.Rule;
import org.junit.Test;
import org.junit.rules.TemporaryFolder;

/** Jars as no tool makes them by intent. */
public class OddJarsTest {
    private static final byte[] FILE = file();
    @Rule
    public final TemporaryFolder made = new TemporaryFolder();
    private final Jars jars = new Jars();

    private static byte[] file() {
        try {
            return Jars.file("p/A", "java/lang/Object", 0, 52);
        } catch (IOException impossible) {
            throw new IllegalStateException(impossible);
        }
    }

    private Path path(String name) {
        return made.getRoot().toPath().resolve(name);
    }

    private Taken take(Path jar) throws Exception {
        return new Taken(jar, path("taken"), 17, jars.host);
    }

    private String refused(Path jar) throws Exception {
        try {
            take(jar);
        } catch (Stop stop) {
            assertEquals(Stop.NOT_RUN, stop.status);
            return stop.getMessage();
        }
        fail("it is taken");
        return null;
    }

    /** Changes each place of a text in a jar to another text of the same length. */
    private static Path edit(Path jar, String from, String to) throws IOException {
        String text = new String(Files.readAllBytes(jar), StandardCharsets.ISO_8859_1);
        assertTrue(text.contains(from));
        return Files.write(jar, text.replace(from, to).getBytes(StandardCharsets.ISO_8859_1));
    }

    @Test
    public void ofANameTwiceOneIsTaken() throws Exception {
        byte[] other = Jars.file("p/A", "p/B", 0, 52);
        Path jar = edit(Jars.jar(path("twice.jar"), "p/A.class", FILE, "p/C.class", other), "p/C.class", "p/A.class");
        Taken taken = take(jar);
        assertEquals(Collections.singleton("p/A.class"), taken.paths);
        byte[] bytes = Files.readAllBytes(taken.folder.resolve("p/A.class"));
        assertTrue(Arrays.equals(FILE, bytes) || Arrays.equals(other, bytes));
    }

    @Test
    public void oneThatIsCutIsRefused() throws Exception {
        Path jar = Jars.jar(path("cut.jar"), "p/A.class", FILE);
        byte[] bytes = Files.readAllBytes(jar);
        assertTrue(refused(Files.write(jar, Arrays.copyOf(bytes, bytes.length / 2))).endsWith("isn't a jar"));
    }

    @Test
    public void oneWithAPasswordIsRefused() throws Exception {
        Path jar = Jars.jar(path("secret.jar"), "p/A.class", FILE);
        byte[] bytes = Files.readAllBytes(jar);
        // the flag of encryption, in the local and in the central header
        for (int i = 0; i + 10 < bytes.length; i++) {
            if (bytes[i] == 'P' && bytes[i + 1] == 'K' && (bytes[i + 2] == 3 || bytes[i + 2] == 1)) {
                bytes[i + (bytes[i + 2] == 3 ? 6 : 8)] |= 1;
            }
        }
        assertTrue(refused(Files.write(jar, bytes)).contains("password"));
    }

    @Test
    public void aFileWithOtherBytesThanItsSumIsRefused() throws Exception {
        Path jar = Jars.jar(path("rotten.jar"), "p/A.class", FILE);
        byte[] bytes = Files.readAllBytes(jar);
        bytes[45] ^= 0x55;
        assertTrue(refused(Files.write(jar, bytes)).contains("can't be unpacked"));
        assertFalse(Files.exists(path("taken").resolve("p/A.class")));
    }

    @Test
    public void ofAHugeFileOnlySoMuchIsTakenThatTheProgramRefusesIt() throws Exception {
        byte[] huge = Arrays.copyOf(FILE, 8_000_000);
        Taken taken = take(Jars.jar(path("huge.jar"), "p/A.class", huge));
        assertEquals(4_194_305, Files.size(taken.folder.resolve("p/A.class")));
    }

    @Test
    public void pathsThatLeadOutsideAreNotTaken() throws Exception {
        Taken taken = take(Jars.jar(path("out.jar"), "../A.class", FILE, "/A.class", FILE, "p/../../A.class", FILE, "p//A.class", FILE, "./A.class", FILE, "p/./A.class", FILE));
        assertEquals(Collections.emptySet(), taken.paths);
        assertFalse(Files.exists(path("A.class")));
    }

    @Test
    public void whatHasNoClassFileIsToldApart() throws Exception {
        assertTrue(Hints.ofNothing(Jars.jar(path("a.aar"), "classes.jar", FILE)).contains("Android"));
        assertTrue(Hints.ofNothing(Jars.jar(path("s.jar"), "p/A.java", FILE)).contains("sources, as p/A.java"));
        assertTrue(Hints.ofNothing(Jars.jar(path("w.war"), "WEB-INF/lib/a.jar", FILE)).contains("a jar in it, as WEB-INF/lib/a.jar"));
        assertEquals("", Hints.ofNothing(Jars.jar(path("e.jar"), "a.txt", FILE)));
        assertTrue(Hints.areSame(path("e.jar"), path("e.jar")));
        assertFalse(Hints.areSame(path("e.jar"), path("s.jar")));
    }

    @Test
    public void whatIsNoClassFileNamesNothing() throws Exception {
        for (byte[] bytes : new byte[][] {new byte[0], Arrays.copyOf(FILE, 9), Arrays.copyOf(FILE, FILE.length - 3), "no class file, but long enough".getBytes(StandardCharsets.US_ASCII)}) {
            assertEquals(Collections.emptySet(), Mentions.declared(bytes));
        }
        assertEquals(Collections.singleton("java/lang/Object"), Mentions.declared(FILE));
    }
}
