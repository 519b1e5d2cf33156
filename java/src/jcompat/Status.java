package jcompat;

import java.util.Arrays;
import java.util.List;

/** The statuses of a comparison that was made. Those from 2 to 7 are the program's, and {@link Stop} has the others of a run without an answer. */
public final class Status {
    /** There are no findings, or each gate that is asked passes. */
    public static final int GOOD = 0;
    /** There are findings, or a gate that is asked doesn't pass. */
    public static final int BREAKS = 1;
    /** A class of the old release wasn't compared, where all are asked for. */
    public static final int NOT_WHOLE = 71;
    /** There are warnings, dropped interfaces or lines on calls, where none are meant to be. */
    public static final int NOT_STRICT = 72;
    /** The new release doesn't run on the Java that was named. */
    public static final int NEEDS_JAVA = 73;
    private static final List<Integer> ORDER = Arrays.asList(GOOD, NOT_STRICT, NOT_WHOLE, NEEDS_JAVA, BREAKS);

    private Status() {
    }

    /** Of two the one that says more: findings before a Java that is too old, before classes that weren't compared, before warnings. Any other comes first. */
    static int greater(int one, int other) {
        if (!ORDER.contains(one) || !ORDER.contains(other)) {
            return ORDER.contains(one) ? other : one;
        }
        return ORDER.get(Math.max(ORDER.indexOf(one), ORDER.indexOf(other)));
    }
}
