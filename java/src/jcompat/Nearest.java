package jcompat;

import java.util.Collection;

/** Which line of a report somebody may have meant: one on the same class or member, of the same rule if there is one. */
final class Nearest {
    private static final int LEAST = 4;

    private Nearest() {
    }

    /** Null where none is near. */
    static Line of(String entry, Collection<Line> lines) {
        String[] word = entry.replaceFirst("\\*$", "").trim().split("\\s+");
        Line nearest = null;
        int best = LEAST - 1;
        for (Line line : lines) {
            int near = near(word, line);
            if (near > best) {
                best = near;
                nearest = line;
            }
        }
        return nearest;
    }

    private static int near(String[] word, Line line) {
        // whoever leaves out the rule begins with the class
        boolean isOfRule = line.text.startsWith(word[0] + " ");
        int at = isOfRule || word.length > 1 && !word[0].contains("/") ? 1 : 0;
        int near = isOfRule ? 2 : 0;
        String type = at < word.length ? word[at].replace('.', '/') : "";
        near += type.equals(line.type) ? 4 : !type.isEmpty() && Names.simple(type).equalsIgnoreCase(Names.simple(line.type)) ? 3 : 0;
        String member = at + 1 < word.length ? word[at + 1] : "";
        if (!member.isEmpty() && !member.equals("-") && Names.member(member).equals(Names.member(line.member))) {
            near += member.equals(line.member) ? 3 : 2;
        }
        return near;
    }
}
