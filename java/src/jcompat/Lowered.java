package jcompat;

import java.util.Map;
import java.util.TreeMap;

/**
 * Class files for a Java that is newer than what jcompat reads. Their form is that of Java 21, since chapter 4 of the specifications of Java 22 to
 * 25 changes nothing but the number; so the program is given copies with a lower number. Those of a preview (the minor version 65535) aren't
 * lowered: a preview may change the form, as that of value classes does.
 */
final class Lowered {
    /** The newest major version that the program reads: docs/CLASS_FILES.md, BadVersion. */
    private static final int READ = 65;
    /** The newest one whose chapter 4 was compared with that of Java 21. */
    private static final int COMPARED = 69;

    /** How many class files were lowered, by Java. */
    private final Map<Integer, Integer> counts = new TreeMap<>();

    /** Lowers the number in the bytes of a class file, where its form allows it. */
    synchronized byte[] lower(byte[] bytes) {
        if (bytes.length > 8 && bytes[0] == (byte) 0xca && bytes[4] == 0 && bytes[5] == 0) {
            int major = major(bytes);
            if (major > READ && major <= COMPARED) {
                bytes[6] = 0;
                bytes[7] = READ;
                counts.merge(java(major), 1, Integer::sum);
            }
        }
        return bytes;
    }

    /** The minor version, in the upper half, and the major one; 0 of what is no class file. */
    static int version(byte[] bytes) {
        return bytes.length < 8 || bytes[0] != (byte) 0xca ? 0 : (bytes[4] & 0xff) << 24 | (bytes[5] & 0xff) << 16 | major(bytes);
    }

    private static int major(byte[] bytes) {
        return (bytes[6] & 0xff) << 8 | bytes[7] & 0xff;
    }

    private static int java(int major) {
        return major - 44;
    }

    static int newestRead() {
        return java(READ);
    }

    /** Says what was lowered, of a release, a library or the JDK. */
    void say(String name, Host host) {
        counts.forEach((java, count) -> host.say(name + ": " + count + (count == 1 ? " class file is" : " class files are") + " for Java " + java
                + ", read as for Java " + newestRead() + ": the form of class files is the same but for the number"));
    }

    /** Why the program refuses a class file by its version; null where the version isn't the reason. */
    static String refused(byte[] bytes) {
        if (bytes.length < 8 || major(bytes) <= READ) {
            return null;
        }
        String java = "Java " + java(major(bytes));
        return bytes[4] == -1 && bytes[5] == -1 ? "uses previews of " + java + ", which may change what class files mean: compile it without --enable-preview"
                : "is for " + java + ", and jcompat reads class files up to Java " + java(COMPARED) + ": compile it with --release " + java(COMPARED);
    }
}
