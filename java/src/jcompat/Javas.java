package jcompat;

import java.util.ArrayList;
import java.util.Collection;
import java.util.List;
import java.util.TreeSet;

/**
 * Which Java class files ask for (JVMS 4.1): a virtual machine ends with UnsupportedClassVersionError where it is older than one of them. Those with
 * previews run on the one version that made them, and with --enable-preview alone.
 */
final class Javas {
    private static final int FIRST = 44;
    private static final int PREVIEWS = 0xffff;

    /** The newest, as 17; 0 without class files. */
    final int newest;
    /** Those whose previews are used. */
    final TreeSet<Integer> previews = new TreeSet<>();

    /** Of the first eight bytes of class files as one number: what stands behind the magic number, the minor and the major version. */
    Javas(Collection<Integer> versions) {
        int most = 0;
        for (int version : versions) {
            int java = (version & 0xffff) - FIRST;
            most = Math.max(most, java);
            if (version >>> 16 == PREVIEWS) {
                previews.add(java);
            }
        }
        newest = most;
    }

    /** As <code>17</code>, or <code>1.4</code> of old ones. */
    static String name(int java) {
        return java < 5 ? "1." + java : "" + java;
    }

    /** What the new release asks for beyond the old one. */
    static List<String> needs(Javas before, Javas now) {
        List<String> needs = new ArrayList<>();
        if (now.newest > before.newest) {
            String old = name(before.newest);
            String last = name(now.newest - 1);
            needs.add("needs Java " + name(now.newest) + ", the old release ran on " + old + ": clients on " + (old.equals(last) ? old : old + " to " + last)
                    + " get UnsupportedClassVersionError");
        }
        for (int java : now.previews) {
            if (!before.previews.contains(java)) {
                needs.add("uses previews of Java " + name(java) + ", the old release didn't: it runs on that version alone, with --enable-preview");
            }
        }
        return needs;
    }

    /** Why the release doesn't run on a Java, or null. */
    String refused(int java) {
        if (newest > java) {
            return "the new release needs Java " + name(newest) + ", and --java is " + name(java);
        }
        for (int each : previews) {
            if (each != java) {
                return "the new release uses previews of Java " + name(each) + ", and --java is " + name(java);
            }
        }
        return null;
    }
}
